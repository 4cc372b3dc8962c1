"""What the fillers share."""
import os

TOP = os.path.dirname(os.path.dirname(os.path.dirname(os.path.abspath(__file__))))


class Fault(Exception):
    """What is wrong with a page or with what it is filled from, and nothing can fill."""
