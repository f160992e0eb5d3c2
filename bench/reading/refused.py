"""How a call ends that is refused."""

NAMES = {3: "Input", 4: "Program", 5: "Journal", 6: "Book", 7: "Text", 8: "Invalid", 9: "Certificate", 11: "NoPlan", 12: "Keeper",
         13: "Damaged", 14: "Sink", 15: "NotLeast", 19: "Source", 20: "Script"}


class Refused(Exception):
    def __init__(self, status, place=0, more=0, rule=0, tail=""):
        self.status = status
        self.text = f"reversal: {status} {NAMES[status]} {place} {more} {rule}{tail}"
