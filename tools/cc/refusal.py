"""What sancus-cc does not do, said in a line."""


class Refusal(Exception):
    pass
