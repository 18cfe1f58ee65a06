"""Texts of Set-Cookie and Cookie headers, as far as this tool looks into them."""


def pair(text):
    """The `name=value` that a Set-Cookie text would be sent as."""
    name, equals, value = text.partition(';')[0].partition('=')
    if not equals:
        name, value = '', name
    name, value = name.strip(' \t'), value.strip(' \t')
    return f'{name}={value}' if name else value


def name_of(sent):
    """The name in a `name=value` as it is sent."""
    name, equals, _ = sent.partition('=')
    return name if equals else ''


def attributes(text):
    """The names of the attributes of a Set-Cookie text, in lower case."""
    return {part.partition('=')[0].strip(' \t').lower() for part in text.split(';')[1:]}


def is_partitioned(text):
    """Whether a Set-Cookie text asks for a partition."""
    return 'partitioned' in attributes(text)


def sent_pairs(header):
    """The `name=value` texts of a Cookie header."""
    return [part for part in (it.strip(' \t') for it in header.split(';')) if part] if header else []
