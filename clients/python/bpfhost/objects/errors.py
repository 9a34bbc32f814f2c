"""The error for an object that is rejected."""

from bpfhost.errors import InputError


class ObjectError(InputError):
    """An object file that is damaged, or needs what the host does not have; the text names symbol and section."""
