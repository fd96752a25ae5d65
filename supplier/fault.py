"""What went wrong, in words a supplier can act on."""

NO_CERTIFICATE = 1  # the job has an answer, and it is not a certificate
BAD_JOB = 2  # a file, a command or a proof is at fault


class Fault(Exception):
    """A message for the supplier, with the exit code of the tool."""

    def __init__(self, message, code=BAD_JOB):
        super().__init__(message)
        self.code = code
