"""Runs programs that are written for gevent, with gvr deciding every order: `./gvr live PROGRAM.py`.

    session.py       one run: its greenlets, and the loop that lets them go on
    decider.py       what a session asks of whoever decides
    stepped.py       a decider that drives the model of the machine
    rerun.py         one that runs the record again at each statement
    record.py        the scenario that a run spells; handles.py, spelling.py: its handles, its text
    translate.py     values and exceptions, and the machine's words for them; values.py: their table
    certificate.py   the record, run by the proved program
    waits.py         who waits for what, and who spun; places.py: lines of the program
    program.py       runs a program; command.py: the command; clock.py, printing.py: its time and its prints
    under_gevent.py  the same program under real gevent
"""
