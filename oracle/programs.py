"""Runs the programs on request lines and holds their answers side by side."""

import os
import re
import subprocess
import sys
import tempfile
from functools import lru_cache
from itertools import islice
from pathlib import Path

import model

TOP_FOLDER = Path(__file__).resolve().parent.parent
WORK = TOP_FOLDER / 'target' / 'oracle'
RUST = WORK / 'cargo' / 'release' / 'oracle-server'
# ORACLE_REPLAY names another program to hold beside the Rust.
OURS = Path(os.environ.get('ORACLE_REPLAY', TOP_FOLDER / 'target' / 'bin' / 'replay'))
# The exported functions behind the same protocol, and its operations that they answer.
EXPORTED = WORK / 'exported'
EXPORTED_OPERATIONS = {'stream', 'assemble'}
BATCH = 50_000

# Differences that docs/DIFFERENCES.md lists: (operation, why, test of request, Rust's answer and ours).
KNOWN = [
    ('timed', 'timing a reduced header', lambda line, rust, ours: rust.startswith('ok ') and ours == 'no 17'),
    ('annexb', 'sizes inside Annex B', lambda line, rust, ours: ignores_sizes(line, rust, ours)),
    ('scan', 'explicit tiles of no width', lambda line, rust, ours: divides_by_zero(line, rust)),
]

REFUSED = re.compile('no ([0-9]+)(?: ([0-9]+))?')
# Of a frame within a scan.
REFUSED_FRAME = re.compile('no {([^}]*)}')

# The Rust's errors are texts. The first of these that is found in one gives the refusal's number.
RUST_TEXTS = {
    'Annex-B temporal_unit_size': 6, 'truncated Annex-B temporal unit': 7, 'Annex-B frame_unit_size': 8,
    'frame unit overruns temporal unit': 9, 'bad Annex-B OBU size': 10, 'OBU overruns frame unit': 11,
    'empty Annex-B OBU': 12, 'truncated Annex-B OBU header': 3, 'empty Annex-B stream': 13,
    'obu_forbidden_bit': 1, 'unknown OBU type': 2, 'truncated OBU extension': 3, 'bad leb128 OBU size': 4,
    'OBU payload overruns': 5, 'leb128 too long': 4, 'unterminated leb128': 4,
    'unexpected end of OBU payload': 14, 'f(n) with n > 64': 14, 'seq_profile > 2': 15, 'uvlc value too large': 16,
    'reduced still picture header': 17, 'reduced_still_picture_header streams': 17, 'frame_id_numbers_present': 18,
    'decoder model with unequal': 19, 'film_grain_params_present': 20,
    'no segments': 21, 'gop size must be': 22, 'need at least 2 output frames': 23, 'requests 0 frames': 24,
    'output frames exceeds': 25, 'must contain a sequence header OBU': 26, 'has a different sequence header': 27,
    'contains no frame OBU': 28, 'must contain a shown KEY_FRAME': 29, 'cannot be show_existing': 30,
    'golden frame must be shown': 31, 'golden frame is not showable': 32, 'refreshes no reference slots': 33,
    'film grain streams unsupported': 20, 'frame_refs_short_signaling needs': 41, 'show_existing_frame inputs': 42,
}
SEGMENT = re.compile('segment ([0-9]+)')


def need(program, how):
    if not program.is_file():
        sys.exit(f'no program {program}: run {how} first')


def rust_request(line):
    """The Rust lends no memory: it is asked without the prefix `room B E T `."""
    return ' '.join(line.split(' ')[4:]) if line.startswith('room ') else line


class Run:
    """One program working through a file of requests, in a folder of its own."""

    def __init__(self, command, lines):
        WORK.mkdir(parents=True, exist_ok=True)
        self.count = len(lines)
        self.folder = tempfile.TemporaryDirectory(dir=WORK)
        requests = Path(self.folder.name, 'requests')
        self.answers = Path(self.folder.name, 'answers')
        requests.write_text(''.join(line + '\n' for line in lines))
        with requests.open('rb') as given, self.answers.open('wb') as taken:
            self.process = subprocess.Popen(command, stdin=given, stdout=taken)

    def result(self):
        """The answers; a line without an answer, or a run that ends badly, counts as a wrong one."""
        status = self.process.wait()
        answers = self.answers.read_text('utf-8', 'replace').split('\n')
        self.folder.cleanup()
        answers.pop()
        if len(answers) > self.count:
            status = f'{status}, {len(answers)} answers to {self.count} requests'
        answers = answers[:self.count] + ['(no answer)'] * (self.count - len(answers))
        if status != 0:
            answers[-1] = f'(ended with status {status})'
        return answers


def answered(requests, program):
    """For each request: request, the Rust's answer, the program's or None, the papers' or None."""
    requests = iter(requests)
    while lines := list(islice(requests, BATCH)):
        rust = Run([RUST, '--texts'], [rust_request(line) for line in lines])
        ours = Run([program], lines) if program else None
        paper = [model.answer(line) for line in lines]
        our_answers = ours.result() if ours else [None] * len(lines)
        yield from zip(lines, rust.result(), our_answers, paper)


@lru_cache(maxsize=10_000)
def rust_refusal(text):
    """The number and the segment that an error text of the Rust names; None where it names none."""
    number = next((number for part, number in RUST_TEXTS.items() if part in text), None)
    segment = SEGMENT.search(text)
    return number, segment and segment[1]


def rust_agrees(rust, answer):
    """A refusal has the number of the Rust's text, and its segment if the text has one."""
    refusal = REFUSED.fullmatch(answer)
    if not refusal or not rust.startswith('no '):
        return REFUSED_FRAME.sub(lambda frame: f'no {rust_refusal(frame[1])[0]}', rust) == answer
    number, segment = rust_refusal(rust[3:])
    return number == int(refusal[1]) and segment in (None, refusal[2])


def ignores_sizes(line, rust, ours):
    """An OBU inside Annex B has its size bit set, and the Rust's answer is the one without a look at it."""
    if rust_agrees(rust, ours) or not model.is_annexb_with_sizes(line):
        return False
    return rust_agrees(rust, model.answer(rust_request(line), model.AS_RUST))


def divides_by_zero(line, rust):
    """The Rust panics at a frame with explicit tiles of no width, and there alone."""
    return 'panic' in rust and rust_agrees(rust, model.answer(rust_request(line), model.AS_RUST))


def speaks_of_room(line, answer):
    """The Rust has no lent memory that could be too small, nor a prefix that could be wrong."""
    return line.startswith('room ') and answer in ('no 35', 'bad line')


def is_known(line, rust, answer):
    name = model.parts(line)[0]
    return any(name == operation and test(line, rust, answer) for operation, _, test in KNOWN)
