"""The tests of the tools. A job in the background of a shell ignores Ctrl-C, and one under `nohup` a closed terminal,
and so would all that it starts: here both are as at a terminal."""
import signal

signal.signal(signal.SIGINT, signal.default_int_handler)
signal.signal(signal.SIGHUP, signal.SIG_DFL)
