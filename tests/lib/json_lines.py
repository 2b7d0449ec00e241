"""What the commands write with `--json`: the objects of its lines, and the lines of text with the same content."""

import json

# the members of an object, in order, and its lines of text; each number of its output is a line before them
FORMS = {
    'program accepted': '{program} accepted {accepted}\n',
    'program refused slot': '{program} refused {refused} {slot}\n',
    'program refused slot why': '{program} refused {refused} {slot}\n  {why}\n',
    'fault line': 'fault {fault} line {line}\n',
    'fault line why': 'fault {fault} line {line}\n  {why}\n',
    'stopped event': 'stopped {stopped} {event}\n',
    'run going executed output': 'run {run} going {going} executed {executed}\n',
    'run exit executed output': 'run {run} exit {exit} executed {executed}\n',
    'kind slots held': 'kind {kind} slots {slots} held {held}\n',
    'shelf slot': 'shelf {shelf} slot {slot}\n',
    'job exit executed peak output': 'job {job} exit {exit} executed {executed} peak {peak}\n',
    'cache allocs frees nulls missing': 'cache {cache} allocs {allocs} frees {frees} nulls {nulls} missing {missing}\n',
    'covered slot executed instruction': 'covered {covered} slot {slot} executed {executed}: {instruction}\n',
    'covered slot executed taken instruction': 'covered {covered} slot {slot} executed {executed} taken {taken}: {instruction}\n',
    'accepted': 'accepted {accepted}\n',
    'refused slot': 'refused {refused} {slot}\n',
    'refused slot why': 'refused {refused} {slot}\n  {why}\n',
    'exit executed peak output': 'exit {exit} executed {executed} peak {peak}\n',
    'slot instruction': '{slot}: {instruction}\n',
    'slot instruction changed value': '{slot}: {instruction}  ; {changed} = {value}\n',
    'slot instruction emit changed value': '{slot}: {instruction}  ; emit {emit}, {changed} = {value}\n',
    'known': '  {known}\n',
    'lost': '  {lost}\n',
    'of visit': '  slot {of}, visit {visit}\n',
    'of': '  added\n',
    'data from to': 'context+{from}..+{to} {data}\n',
    'hex': '{hex}\n',
    'hex of': '{hex}\n',
    'hex of data': '{hex}\n{data}\n',
    'loop why': 'loop {loop[from]} {loop[to]}\n  {why}\n',
    'loop turns why exits': 'loop {loop[from]} {loop[to]}\n  {why}\n{ways_out}',
    'refused slot why visit known': 'refused {refused} {slot}\n  {why}\n  before slot {slot}, at visit {visit}:  {known}\n',
    'file line source': '; {file}:{line}: {source}\n',
    'file line column source': '  {file}:{line}:{column}: {source}\n',
    'shelf puts gets left': 'shelf {shelf} puts {puts} gets {gets} left {left}\n',
}


def objects_of(text):
    """The objects of the lines of a text."""
    return [json.loads(line) for line in text.splitlines()]


def lines_of(members):
    """The lines of text of an object."""
    form = FORMS[' '.join(members)]
    owner = next((f'{members[word]} ' for word in ('job', 'run') if word in members), '')
    shown = {name: visible(value) if name in ('file', 'source') else value for name, value in members.items()}
    shown['ways_out'] = ''.join(f'  {way}\n' for way in members.get('exits') or ['nothing leads out of it'])
    if members.get('column') == 0:
        form = form.replace(':{column}', '')
    if 'data' in members and members.get('from') == members.get('to', ''):
        form = form.replace('..+{to}', '')
    return ''.join(f'emit {owner}{value}\n' for value in members.get('output', [])) + form.format(**shown)


def visible(text):
    """A text of a file as lines show it: with `?` for what is no visible character of ASCII and no blank."""
    return ''.join(character if ' ' <= character <= '~' else '?' for character in text)


def text_of(text):
    """The text of objects on lines; none if a line is no object of a form."""
    try:
        return ''.join(map(lines_of, objects_of(text)))
    except (ValueError, LookupError, TypeError):
        return None
