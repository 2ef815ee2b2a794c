"""What a scenario needs to go on."""


class End(Exception):
    """Why a scenario does not go on."""


def need(holds, why):
    if not holds:
        raise End(why)
