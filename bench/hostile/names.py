"""Names as texts (RFC 1035, section 5.1), by this project's rules, and faults with their offsets."""


class Fault(Exception):
    pass


def fault_text(fault):
    return f"!{fault.args[0]}({fault.args[1]})" if len(fault.args) > 1 else f"!{fault.args[0]}"


def printed_byte(byte, least):
    return chr(byte) if least <= byte <= 0x7E else f"\\{byte:03}"


def printed_name(labels):
    """Each label with a dot behind it; dots and backslashes have a backslash before them."""
    if not labels:
        return "."
    return "".join("".join("\\" + chr(b) if b in b".\\" else printed_byte(b, 0x21) for b in label) + "." for label in labels)


def bytes_of_labels(text):
    """The bytes of the text from the left, each with its offset: None for a dot that parts labels."""
    at = 0
    while at < len(text):
        byte, size = text[at], 1
        if byte == ord("\\"):
            digits = text[at + 1:at + 4]
            if digits[:1].isdigit():
                if not (len(digits) == 3 and digits.isdigit() and int(digits) <= 255):
                    raise Fault("BadEscape", at)
                byte, size = int(digits), 4
            elif digits:
                byte, size = digits[0], 2
            else:
                raise Fault("BadEscape", at)
            yield at, byte
        else:
            yield at, None if byte == ord(".") else byte
        at += size


def read_name(text):
    """The labels, and whether a dot ends the text; or the first fault from the left."""
    if text == b".":
        return [], True
    labels, label, first, dotted = [], b"", 0, False

    def end(at):
        if not label:
            raise Fault("EmptyLabel", at)
        if sum(map(len, labels)) + len(labels) + len(label) + 2 > 255:
            raise Fault("LongName", first)
        labels.append(label)

    for at, byte in bytes_of_labels(text):
        dotted = byte is None
        if dotted:
            end(at)
            label, first = b"", at + 1
        elif len(label) == 63:
            raise Fault("LongLabel", at)
        else:
            label += bytes([byte])
    if not dotted:
        end(len(text))
    return labels, dotted


def name_or_none(text):
    try:
        return read_name(text)[0]
    except Fault:
        return None


def lowered(labels):
    return [label.lower() for label in labels]


def told(text):
    try:
        labels, absolute = read_name(text)
    except Fault as fault:
        return fault_text(fault)
    return printed_name(labels) + (" absolute" if absolute else "")
