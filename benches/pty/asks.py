"""Commands of four kinds, each for a connection of its own, and what the simulated modem has to answer before OK (27.007; V.250).

The place of a command among those of its connection says which it is.
"""


def signal(number):
    return "AT+CSQ", ["+CSQ: 18,99"]


def context(number):
    """Sets contexts 1 to 15 in turn, and asks for them behind each fifteen (27.007, 10.1.1)."""
    place, turn = number % 16, number // 16
    if place < 15:
        return f'AT+CGDCONT={place + 1},"IP","net{turn}.{place}"', []
    return "AT+CGDCONT?", [f'+CGDCONT: {cid + 1},"IP","net{turn}.{cid}","",0,0' for cid in range(15)]


def registration(number):
    """Has changes announced, and then leaves the network and comes back in turn (27.007, 7.2 and 7.3)."""
    if number == 0:
        return "AT+CREG=1", []
    return ("AT+COPS=2" if number % 2 else "AT+COPS=0"), []


def joined(number):
    return "AT+CGMI;+CGMM;+CGSN", ["Cimbaloty", "Simulated modem", "490154203237518"]


KINDS = [signal, context, registration, joined]
