"""Errors, reasons and faults in words: docs/PROTOCOL.md, docs/VERIFIER.md ("Reasons"), docs/INSTRUCTIONS.md ("Text")."""

from bpfhost.numbers import Code, Command, Errno

ERRNO_WORDS = {
    # errors: written by tools/generate
    Errno.EPERM: "the host does not serve this tenant",
    Errno.ENOENT: "no such key, or no key after it",
    Errno.E2BIG: "too large, or the map is full",
    Errno.EBADF: "the descriptor is not open",
    Errno.ENOMEM: "out of memory",
    Errno.EACCES: "the program is not allowed to do this",
    Errno.EEXIST: "the key exists",
    Errno.EINVAL: "a field or a size is invalid",
    Errno.EMFILE: "no descriptor is free",
    Errno.ENOSPC: "no room for another map",
    # end of errors
}

CODE_WORDS: dict[int, str] = {
    # codes: written by tools/generate
    Code.DONE: "the call succeeded",
    Code.ERR_NO_HOST: "the handle is empty",
    Code.ERR_HAS_HOST: "the handle has a host already",
    Code.ERR_TENANT_COUNT: "a host has 1 to 64 tenants",
    Code.ERR_NO_MEMORY: "out of memory for the host or for the call",
    Code.ERR_BUFFER_TOO_SMALL: "the buffer is smaller than the longest reply, or than a value or a key",
    Code.ERR_NO_PART: "the tenant has no such part, or is not served",
    Code.ERR_TOO_BIG: "a struct has a word that the library does not know, and that is not 0",
    Code.ERR_SIZE: "a struct has no size, or one of no whole words",
    Code.ERR_STALE: "a descriptor of the program names no map of the shape with which it was prepared",
    Code.ERR_NO_PROGRAM: "there is no prepared program: it was installed or freed",
    Code.ERR_HAS_PROGRAM: "there is a prepared program already",
    Code.ERR_DESCRIPTORS: "a descriptor is given an object that there cannot be, or there are too many",
    Code.ERR_STYLE: "there is no style of a log with this number",
    # end of codes
}

REASONS = {
    # reasons: written by tools/generate
    1: "a jump out of the program, or into the second half of a wide instruction",
    2: "a jump to the same or an earlier slot",
    3: "the last instruction can go on past the end",
    4: "no path leads to the instruction",
    5: "an unknown helper",
    6: "arithmetic or a load into the frame pointer",
    7: "a map's descriptor is not open",
    8: "a map's descriptor is of something else",
    9: "a value is loaded directly that the map does not have",
    20: "an unreadable register is read",
    21: "the result at the exit is not a scalar",
    22: "an access at what is not a pointer",
    23: "arithmetic on a pointer",
    24: "a pointer is moved too far",
    25: "outside the stack",
    26: "not aligned in the stack",
    27: "a stack byte that may not be written is read",
    28: "a part of a spilled pointer",
    29: "outside a map's value",
    30: "the pointer may be null",
    31: "an access to the context other than a load of one of its words",
    32: "a pointer is stored outside the stack",
    33: "a pointer is compared with something other than null",
    34: "a helper's argument of the wrong kind",
    35: "a helper's length may be zero or too large",
    36: "an atomic operation in a map's value at an offset that is not known to be a multiple of its size",
    40: "the verifier got no memory",
    101: "no instruction begins with this byte",
    102: "a field has a value that no instruction has there",
    103: "a register's number is above 10",
    104: "the second slot of a wide load is missing or wrong",
    105: "the bytes are no whole slots",
    106: "there is no slot",
    107: "there are more than 4,096 slots",
    108: "out of memory for the program",
    # end of reasons
}

TEXT_FAULTS = {
    # text faults: written by tools/generate
    1: "it is none of the forms",
    2: "a number is out of its range",
    3: "its jump names a label that no line defines",
    4: "it defines a label that an earlier line defines",
    5: "its slots are the first past 4,096",
    6: "there is no instruction",
    7: "out of memory",
    # end of text faults
}


def errno_name(status: int) -> str:
    """A negative status with the name of its error: `EINVAL (-22)`."""
    try:
        return f"{Errno(-status).name} ({status})"
    except ValueError:
        return f"error {status}"


def errno_words(status: int) -> str:
    """The meaning of a negative status."""
    try:
        return ERRNO_WORDS[Errno(-status)]
    except ValueError:
        return "not an error of the protocol"


def reason_words(reason: int) -> str:
    """The meaning of the reason for which a program is rejected."""
    return REASONS.get(reason, "not a reason of the verifier")


def command_name(number: int) -> str:
    """The name of a command."""
    try:
        return Command(number).name
    except ValueError:
        return f"command {number}"
