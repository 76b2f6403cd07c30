"""What page and console say in German, for the tests of both engines: each has to give the same."""
CASES = {
    "Hold": "Halt",
    "Hold ": "Halt ",
    "  Hold\n": "  Halt\n",
    "ngc> ": "ngc> ",
    "X 1.000   Y \u22122.000": "X 1.000   Y \u22122.000",
    "part.ngc": "part.ngc",
    "": "",
    "This is a sentence that nobody wrote.": "This is a sentence that nobody wrote.",
    "Tool 3 is in": "Werkzeug 3 eingesetzt",
    "1 line": "1 Zeile",
    "1,234 lines": "1,234 Zeilen",
    "part.ngc, 1,234 lines": "part.ngc, 1,234 Zeilen",
    "Spindle and coolant off": "Spindel und K\u00fchlmittel aus",
    "Coolant off": "K\u00fchlmittel aus",
    "mist + flood": "mist + flood",
    "mist and flood": "Nebel und Flut",
    "The door is open. Close it; then Go on": "Die T\u00fcr ist offen. Schlie\u00dfen; dann Weiter",
    "The door is open": "Die T\u00fcr ist offen",
    "The door is open.": "Die T\u00fcr ist offen.",
    "nothing moves": "nichts bewegt sich",
    "Nothing moves": "Nichts bewegt sich",
    "Nothing moves yet.": "Noch bewegt sich nichts.",
    "Nothing moves yet": "Noch bewegt sich nichts",
    "refused K4 NoPlace: it isn't known where the machine stands: home, or tell where it is":
        "abgelehnt K4 NoPlace: es ist nicht bekannt, wo die Maschine steht: Referenzfahrt, oder angeben, wo sie steht",
    "2026-11-29 21:00:00 +0000 began part.ngc in line 3": "2026-11-29 21:00:00 +0000 begonnen part.ngc in Zeile 3",
    "after 3.2 s, 1 hold, 2 stops": "nach 3.2 s, 1 Halt, 2 Stopps",
    "load FILE          try a program by a dry run, and store it":
        "load FILE          ein Programm im Trockenlauf pr\u00fcfen und speichern",
    "about 1:02 min left": "noch etwa 1:02 min",
    "9 % of 12.3 s": "9 % von 12.3 s",
    "Work coordinate of this place, in mm": "Werkst\u00fcckkoordinate dieser Stelle, in mm",
    "G54 X, in mm": "G54 X, in mm",
    "Undo: G10 L2 P1 X0": "R\u00fcckg\u00e4ngig: G10 L2 P1 X0",
    "Yes: goes on": "Ja: weiter",
    "held before line 5: run goes on; a line of G-code, as M5, is done and ends the hold; then from 5":
        "angehalten vor Zeile 5: run setzt fort; eine Zeile G-Code, etwa M5, wird abgearbeitet und beendet den Halt;"
        " dann from 5",
    "segment 3 of line 12": "Segment 3 von Zeile 12",
    "still on: the spindle, clockwise at 1000 and mist. Switch that off at the machine":
        "noch an: die Spindel, Rechtslauf bei 1000 und Nebel. Das an der Maschine abschalten",
    "Emergency stop. The motors stood at once, and where the machine is isn't known. Home comes first":
        "Not-Halt. Die Motoren blieben sofort stehen, und wo die Maschine steht, ist nicht bekannt. Erst"
        " Referenzfahrt",
    "Not homed: X, Y. Home each, or measure and tell where it stands":
        "Nicht referenziert: X, Y. Jede referenzieren, oder messen und angeben, wo sie steht",
    "Continue goes on with line 7": "Weiter setzt mit Zeile 7 fort",
    "Running": "L\u00e4uft",
    "Before the rest of line 5": "Vor dem Rest von Zeile 5",
    "in force now: G20, F100 mm/min. restore puts it back":
        "jetzt wirksam: G20, F100 mm/min. restore stellt es zur\u00fcck",
    "tool 2 has 50 mm, and would get 51 mm, 1 mm longer\nyes sets it: ":
        "Werkzeug 2 hat 50 mm und bek\u00e4me 51 mm, 1 mm l\u00e4nger\nyes setzt sie: ",
    "Adapted, still 1 line refused. A refused line stops the program there. Mend these, and load it again.":
        "Angepasst, noch immer 1 Zeile abgelehnt. Eine abgelehnte Zeile h\u00e4lt das Programm dort an. Diese"
        " verbessern und neu laden.",
    "No line is refused. 2 warnings: what is valid may be meant otherwise.":
        "Keine Zeile ist abgelehnt. 2 Warnungen: was g\u00fcltig ist, kann anders gemeint sein.",
    "A loss of power costs no line: 12 stand in OUT": "Ein Stromausfall kostet keine Zeile: 12 stehen in OUT",
    "Last known 3.2 s ago": "Zuletzt bekannt vor 3.2 s",
    "machine here: X 1.000  Y 2.000  Z 3.000": "Maschine hier: X 1.000  Y 2.000  Z 3.000",
    "done 12: part.ngc, 120 bytes, 5 lines": "erledigt 12: part.ngc, 120 Bytes, 5 Zeilen",
    "spindle stands; no coolant; no tool in the spindle":
        "Spindel steht; kein K\u00fchlmittel; kein Werkzeug in der Spindel",
    "a line of yours runs: hold first": "eine eigene Zeile l\u00e4uft: zuerst hold",
    "idle; X 1.000000 Y 0.000000 Z 0.000000": "in Ruhe; X 1.000000 Y 0.000000 Z 0.000000",
    "in force now: G20 (G21 before), F100 mm/min (F0 mm/min before)":
        "jetzt wirksam: G20 (vorher G21), F100 mm/min (vorher F0 mm/min)",
    "2026-11-29 22:00:26 +0000 loaded 44 bytes, mark 8c0bf9cc: part.ngc":
        "2026-11-29 22:00:26 +0000 geladen 44 Bytes, Kennung 8c0bf9cc: part.ngc",
    "Flood M8": "Flut M8",
    "message, line 5": "Meldung, Zeile 5",
    "line 12: G1 X10 F100": "Zeile 12: G1 X10 F100",
    "G1 X1 Q2": "G1 X1 Q2",
    "12 lines behind, up to 0.4 mm": "12 Zeilen R\u00fcckstand, bis zu 0.4 mm",
    "0.5 to 1 mm, by +0.5": "0.5 auf 1 mm, um +0.5",
    "the player says: reference 1 2 3, and isn't sure of it: the motors moved without lines as the last player ended":
        "der Player sagt: reference 1 2 3, und ist nicht sicher: die Motoren bewegten sich ohne Zeilen, als der"
        " letzte Player endete",
    "a new sentence, and spindle, and coolant": "a new sentence, and spindle, and coolant",
    "Hold\nStop": "Halt\nStopp",
    "Feed: 10 percent less": "Vorschub: 10 Prozent weniger",
    "Load part.ngc": "part.ngc laden",
    "A file of this device\u2026": "Eine Datei dieses Ger\u00e4ts\u2026",
    "Z isn\u2019t lifted first: it goes through whatever stands between. Where the violet line isn\u2019t free, free"
    " the tool by hand, go back, and tell where it is then.":
        "Z wird nicht erst gehoben: die Fahrt geht durch alles, was dazwischen steht. Wo die violette Linie nicht"
        " frei ist, das Werkzeug von Hand freimachen, zur\u00fcckgehen und angeben, wo es dann steht.",
}
