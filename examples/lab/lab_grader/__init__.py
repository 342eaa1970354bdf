"""What examples/lab/grade.py is made of. docs/LAB_GRADING.md says what it does."""


class BadExam(Exception):
    """The words or the exam are wrong, so that no file can be judged by them; the text says how."""


class NotJudged(Exception):
    """A file can't be judged; the text says why, and has nothing of the file. The explanation may have."""

    def __init__(self, reason, explanation=""):
        super().__init__(reason)
        self.explanation = explanation.splitlines()


class Refused(NotJudged):
    """A file is judged, and is nothing that could run."""
