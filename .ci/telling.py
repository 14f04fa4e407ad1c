"""How the checks that compare tell what they found."""


def told(check, wrong, fine):
    """Prints each fault of a check, or else what is fine; the status that the check ends with."""
    for it in wrong:
        print(f"{check}: {it}")
    if not wrong:
        print(f"{check}: {fine}")
    return 1 if wrong else 0
