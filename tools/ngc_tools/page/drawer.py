"""What is drawn of the stored program, aside: first with times by length, then with exact ones."""
import threading
from collections.abc import Callable
from dataclasses import replace
from typing import Any

from ngc_tools.formats.device import Device
from ngc_tools.page.aside import Aside, Child, NotDone, Wanted
from ngc_tools.page.drawing import Drawing, DrawingRequest, draw, draw_exactly, setup_of


class Drawer:
    """`drawing` is what is drawn, None for nothing, `failed` why it can't be, and `count` grows with each change."""

    def __init__(self, aside: Aside, changed: Callable[[], None]) -> None:
        """`changed` is called in any thread."""
        self.drawing: Drawing | None = None
        self._preview: Drawing | None = None
        self.failed = ""
        self.count = 0
        self._aside, self._changed = aside, changed
        self._lock = threading.Lock()
        self._source: DrawingRequest | None = None
        self._child: Child | None = None
        self._setup: tuple = ()
        self._entries, self._program = -1, b""

    def begin(self, source: DrawingRequest) -> None:
        """Draws the program of a device, as that stands or stood. Nothing that was begun before is taken any more."""
        device = Device(source.image)
        if device.program != self._program:
            self._forget()
        self._setup, self._entries, self._program = setup_of(device), device.state.entries, device.program
        self._start(source)

    def preview(self, source: DrawingRequest, wanted: Wanted) -> Drawing:
        """A program that isn't loaded, as it would be drawn, with times by length. Where it is loaded then, that isn't
        done again. Raises NotDone, OSError."""
        self._preview = drawing = self._aside.finish(wanted.by(self._aside.begin(draw, source)))
        return drawing

    def _forget(self) -> None:
        """Nothing is drawn of a program that is another one now."""
        with self._lock:
            self.drawing, self._source = None, None
            self.count += 1
        self._changed()

    def is_as_drawn(self, device: Device) -> bool:
        """Whether the program would go where it is drawn if it were begun as a device stands, but for the way to its
        first point."""
        return setup_of(device) == self._setup

    def is_of(self, device: Device) -> bool:
        """Whether it is drawn from how that device stands."""
        return device.state.entries == self._entries

    def leave_out(self, block_delete: bool) -> None:
        """Draws it anew, with block delete or without."""
        if self._source is not None:
            self._start(replace(self._source, block_delete=block_delete))

    def _start(self, source: DrawingRequest) -> None:
        with self._lock:
            self._source = source
            before, self._child = self._child, None
        if before:
            before.give_up()
        if self._program:
            threading.Thread(target=self._draw, args=[source], daemon=True).start()
        else:
            self._take(source, None)

    def _draw(self, source: DrawingRequest) -> None:
        preview, self._preview = self._preview, None
        is_same = preview is not None and source.begins_as(preview.source)
        if is_same:
            self._take(source, replace(preview, source=source))
        try:
            for work in (draw_exactly,) if is_same else (draw, draw_exactly):
                drawing = self._call(source, work)
                if drawing is None:
                    return
                self._take(source, drawing)
        except (NotDone, OSError) as error:
            self._take(source, None, str(error))

    def _call(self, source: DrawingRequest, work: Callable[[DrawingRequest], Drawing]) -> Any:
        """What is drawn aside; None where something else is wanted by now. Raises NotDone, OSError."""
        with self._lock:
            if source is not self._source:
                return None
            child = self._child = self._aside.begin(work, source)
        return self._aside.finish(child)

    def _take(self, source: DrawingRequest, drawing: Drawing | None, failed: str = "") -> None:
        """Takes what was drawn, if nothing else is wanted. Where exact times failed, the others stay."""
        with self._lock:
            if source is not self._source:
                return
            is_kept = bool(failed) and self.drawing is not None and self.drawing.source is source
            self.drawing = self.drawing if is_kept else drawing
            self.failed = failed
            self.count += 1
        self._changed()
