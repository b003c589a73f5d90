"""What the readers say of bytes by this model: `!` and the fault, or what was read, on one line."""
import files
import messages
import names
import records
import runs

READERS = {"message": messages.told, "rdata": records.told, "name": names.told, "address": records.told_address,
           "resolv": files.told_resolv, "hosts": files.told_hosts, "zone": files.told_zone, "run": runs.told}


def told(kind, data):
    return READERS[kind](data).replace("\n", ";")
