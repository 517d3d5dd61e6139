"""What the checker takes of the modules on certificates and networks, named in this place alone."""

from pranet.certificate import (
    CONDITIONS,
    CONST,
    MEM,
    PLACES,
    REGISTERS,
    Certificate,
    Procedure,
    code_of,
    end_text,
    has_memory,
    instruction_text,
    place_name,
    register_of,
)
from pranet.code_file import MOST_DATA, MOST_NAME, NAME
from pranet.network import Network, bits
from pranet.operands import DEEPEST, EVENTS, row_of, weight

__all__ = [
    "CONDITIONS",
    "CONST",
    "DEEPEST",
    "EVENTS",
    "MEM",
    "MOST_DATA",
    "MOST_NAME",
    "NAME",
    "PLACES",
    "REGISTERS",
    "Certificate",
    "Network",
    "Procedure",
    "bits",
    "code_of",
    "end_text",
    "has_memory",
    "instruction_text",
    "place_name",
    "register_of",
    "row_of",
    "weight",
]
