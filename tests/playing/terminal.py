"""A terminal, at one end of which a program is."""

import termios


def silence(end):
    """Has the terminal write back nothing that is typed."""
    state = termios.tcgetattr(end)
    state[3] &= ~termios.ECHO
    termios.tcsetattr(end, termios.TCSANOW, state)
