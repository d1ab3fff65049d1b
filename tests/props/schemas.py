"""What is wrong with a JSON value by one of the schemas docs/NAME.schema.json."""

import functools
import json
import pathlib
import re

from .checks import Failed

ROOT = pathlib.Path(__file__).resolve().parent.parent.parent
TYPES = {'object': dict, 'array': list, 'string': str, 'boolean': bool, 'null': type(None), 'integer': int,
         'number': (int, float)}

# The words of a schema that are known here.
KNOWN = {'$schema', '$defs', '$ref', 'title', 'description', 'oneOf', 'type', 'const', 'enum', 'properties', 'required',
         'additionalProperties', 'items', 'minItems', 'maxItems', 'minimum', 'maximum', 'pattern'}


@functools.lru_cache(None)
def schema(name):
    """The schema of this name."""
    return json.loads((ROOT / 'docs' / ('%s.schema.json' % name)).read_text())


def referred(reference, name):
    """What a reference in the schema of this name refers to, and the name of the schema in which that stands."""
    file, _, path = reference.partition('#')
    name = file.removesuffix('.schema.json') or name
    found = schema(name)
    for word in filter(None, path.split('/')):
        found = found[word]
    return found, name


def fault_in(value, wanted, name):
    """What is wrong with a value by a part of the schema of this name, or None."""
    if set(wanted) - KNOWN:
        raise Failed('the schema has %r' % (set(wanted) - KNOWN))
    if '$ref' in wanted:
        return fault_in(value, *referred(wanted['$ref'], name))
    if 'oneOf' in wanted:
        fits = [one for one in wanted['oneOf'] if fault_in(value, one, name) is None]
        missing = [one for one in wanted.get('required', []) if one not in value]
        return None if len(fits) == 1 and not missing else '%d of its kinds fit, without %r' % (len(fits), missing)
    allowed = [wanted['const']] if 'const' in wanted else wanted.get('enum')
    if allowed and not any(type(one) is type(value) and one == value for one in allowed):
        return '%r is not one of %r' % (value, allowed)
    kinds = wanted.get('type', [])
    kinds = [kinds] if isinstance(kinds, str) else kinds
    if kinds and not any(isinstance(value, TYPES[kind]) and (kind == 'boolean' or not isinstance(value, bool))
                         for kind in kinds):
        return '%r is no %s' % (value, ' or '.join(kinds))
    return fault_of_parts(value, wanted, name)


def fault_of_parts(value, wanted, name):
    """What is wrong with the members of an object, the items of an array, a number or a string."""
    if isinstance(value, dict):
        if list(value) != [one for one in wanted['properties'] if one in value or one in wanted['required']]:
            return 'its members are %r' % list(value)
        return next(filter(None, (fault_in(value[one], wanted['properties'][one], name) for one in value)), None)
    if isinstance(value, list):
        if not wanted['minItems'] <= len(value) <= wanted['maxItems']:
            return '%d items' % len(value)
        return next(filter(None, (fault_in(one, wanted['items'], name) for one in value)), None)
    if isinstance(value, str) and not re.search(wanted.get('pattern', ''), value):
        return '%r has another character' % value
    if isinstance(value, (int, float)) and not isinstance(value, bool):
        if not wanted.get('minimum', value) <= value <= wanted.get('maximum', value):
            return '%r is out of range' % value
    return None
