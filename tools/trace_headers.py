"""Reads ffmpeg's trace of headers, and finds the units of a stream."""
import re
import subprocess
import tempfile


def units(data):
    """The units of a valid byte stream: a unit ends before 00 00 00 or 00 00 01, or before the input's last zeros."""
    found, at = [], data.find(b"\0\0\1")
    while at >= 0:
        body = data[at + 3 :]
        ends = [end for end in (body.find(b"\0\0\0"), body.find(b"\0\0\1")) if end >= 0]
        found.append(body[: min(ends)] if ends else body.rstrip(b"\0"))
        at = data.find(b"\0\0\1", at + 3)
    return found


def kind_of(unit):
    """nal_unit_type."""
    return unit[0] >> 1 & 63


def trace_text(path):
    """What ffmpeg shows of a file's headers."""
    command = ["ffmpeg", "-v", "verbose", "-f", "hevc", "-i", path, "-c", "copy", "-bsf:v", "trace_headers", "-f", "null", "-"]
    text = subprocess.run(command, capture_output=True, text=True).stderr
    return text[text.find("] Packet:") :]  # before it the parameter sets are shown once more


def titled(path):
    """ffmpeg's fields of each header, in order: the header's title, and pairs of a name and a value."""
    headers = []
    for line in trace_text(path).splitlines():
        title = re.match(r"\[trace_headers[^]]*\] ([A-Z][A-Za-z ]*)$", line)
        field = re.match(r"\[trace_headers[^]]*\] \d+ +(\S+) +[01]* *= (-?\d+)", line)
        if title:
            headers.append((title.group(1).strip(), []))
        elif field and headers:
            headers[-1][1].append((field.group(1), int(field.group(2))))
    return headers


def headers_of(path, others):
    """The same, behind the two bytes of each unit's header. ffmpeg shows nothing of a stream without a video parameter
    set: such a one gets that of another."""
    headers = titled(path)
    if not headers:
        copy = with_vps(path, others)
        headers = titled(copy.name) if copy else []
    return [(title, behind_unit_header(fields)) for title, fields in headers]


def behind_unit_header(fields):
    names = [name for name, _ in fields]
    return fields[names.index("nuh_temporal_id_plus1") + 1 :] if "nuh_temporal_id_plus1" in names else fields


def with_vps(path, others):
    for other in others:
        for unit in units(open(other, "rb").read()):
            if kind_of(unit) == 32:
                copy = tempfile.NamedTemporaryFile(suffix=".hevc")
                copy.write(b"\0\0\0\1" + unit + open(path, "rb").read())
                copy.flush()
                return copy
    return None


class Fields:
    """A header's fields, taken in order."""

    def __init__(self, fields):
        self.fields = fields
        self.at = 0

    def next_name(self):
        return self.fields[self.at][0] if self.at < len(self.fields) else ""

    def take(self, name):
        found, value = self.fields[self.at]
        if found.split("[")[0] != name:
            raise ValueError(f"{found} where {name} stands")
        self.at += 1
        return value


def short_term_set(fields, index, sets):
    """The entries of a short-term reference picture set, derived from its fields (7.4.8). `sets` are those of the sequence
    parameter set before it, all of them where the set stands in a slice segment header."""
    if index and fields.take("inter_ref_pic_set_prediction_flag"):
        back = fields.take("delta_idx_minus1") + 1 if fields.next_name() == "delta_idx_minus1" else 1
        sign, size = fields.take("delta_rps_sign"), fields.take("abs_delta_rps_minus1") + 1
        moved = []
        for delta, _ in sets[index - back] + [(0, 0)]:
            used = fields.take("used_by_curr_pic_flag")
            if used or fields.take("use_delta_flag"):
                moved.append((delta + (-size if sign else size), used))
        return sorted((entry for entry in moved if entry[0] < 0), reverse=True) + sorted(entry for entry in moved if entry[0] > 0)
    negatives, positives = fields.take("num_negative_pics"), fields.take("num_positive_pics")
    found = []
    for side, sign, name in ((negatives, -1, "s0"), (positives, 1, "s1")):
        delta = 0
        for _ in range(side):
            delta += sign * (fields.take(f"delta_poc_{name}_minus1") + 1)
            found.append((delta, fields.take(f"used_by_curr_pic_{name}_flag")))
    return found


def entries(found):
    """A set as `stream_trace` prints it."""
    return "".join(f"{delta}:{used}," for delta, used in found)


def short_term_sets(fields, count):
    """The sets of a sequence parameter set."""
    sets = []
    for index in range(count):
        sets.append(short_term_set(fields, index, sets))
    return sets
