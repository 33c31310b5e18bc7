"""Reads SARIF documents from standard input, one per line, each into the objects of sarif_om, whose attributes know the
members of the schema, and writes them again. In place of one that it can't read it writes the reason."""

import json
import sys

import attr
import sarif_om

MADE_OF = {
    ('SarifLog', 'runs'): 'Run',
    ('Run', 'tool'): 'Tool',
    ('Run', 'results'): 'Result',
    ('Run', 'invocations'): 'Invocation',
    ('Tool', 'driver'): 'ToolComponent',
    ('ToolComponent', 'rules'): 'ReportingDescriptor',
    ('ReportingDescriptor', 'shortDescription'): 'MultiformatMessageString',
    ('ReportingDescriptor', 'fullDescription'): 'MultiformatMessageString',
    ('ReportingDescriptor', 'help'): 'MultiformatMessageString',
    ('ReportingDescriptor', 'defaultConfiguration'): 'ReportingConfiguration',
    ('Result', 'message'): 'Message',
    ('Result', 'locations'): 'Location',
    ('Location', 'physicalLocation'): 'PhysicalLocation',
    ('PhysicalLocation', 'artifactLocation'): 'ArtifactLocation',
    ('PhysicalLocation', 'region'): 'Region',
}


def names(kind):
    """The attributes of a class by the names of the members."""
    return {it.metadata['schema_property_name']: it.name for it in attr.fields(getattr(sarif_om, kind))}


def made(kind, value):
    if isinstance(value, list):
        return [made(kind, it) for it in value]
    given = {}
    for name, it in value.items():
        if name not in names(kind):
            raise TypeError('%s has no %s' % (kind, name))
        given[names(kind)[name]] = made(MADE_OF[kind, name], it) if (kind, name) in MADE_OF else it
    return getattr(sarif_om, kind)(**given)


def default(field):
    return field.default.factory() if isinstance(field.default, attr.Factory) else field.default


def again(kind, it):
    """The members of an object, without those that have their default."""
    if isinstance(it, list):
        return [again(kind, one) for one in it]
    told = {}
    for field in attr.fields(getattr(sarif_om, kind)):
        name, value = field.metadata['schema_property_name'], getattr(it, field.name)
        if value != default(field) or name in ('level', 'ruleIndex'):
            told[name] = again(MADE_OF[kind, name], value) if (kind, name) in MADE_OF else value
    return told


for line in sys.stdin:
    try:
        print(json.dumps(again('SarifLog', made('SarifLog', json.loads(line)))))
    except (TypeError, ValueError) as why:
        print(json.dumps(str(why)))
