"""`/openapi.json`: the door's interface for programs. front/openapi.json has each request with its replies; the errors are put in here, by their codes."""
import copy
import json

from .faults import STATUS

ALL = ("host", "method")
SECURED = ("token",)
POSTED = ("lines", "broken", "site", "slow", "long", "type", "used")
# What a request may be turned away with besides.
MORE = {
    "/ask": ("few", "question", "unicode", "questions", "away", "late"),
    "/would": ("few", "question", "unicode", "questions", "verdicts", "renewed", "away", "late"),
    "/why": ("few", "question", "unicode", "questions", "unexplained", "certificates", "away", "late"),
    "/near": ("question", "verdicts", "renewed", "away"),
    "/hint": ("question",),
    "/total": ("total",),
    "/": ("missing",), "/schema.json": ("missing",), "/table.csv": ("missing",), "/notes.json": ("missing",), "/report.jsonl": ("missing",),
    "/period.{period}/{file}": ("address", "missing")}
OF_ALL = ("/", "/health", "/metrics", "/openapi.json", "/tables.json", "/total", "/words.json")    # those that are there once, beside several tables
OF_SEVERAL = ("/total",)
TOO = ("/", "/health", "/tables.json", "/words.json")      # and of these those that each of several tables has as well


def interface(path, names):
    """The description for a door over tables of these names; none of them if there is one table without a name."""
    said = json.loads(path.read_text(encoding="utf-8"))
    for address, operations in said["paths"].items():
        for method, operation in operations.items():
            _add_errors(operation, address, method)
    said["paths"] = dict(_addresses(said["paths"], names))
    return said


def _addresses(paths, names):
    for address, operations in paths.items():
        if address in OF_ALL and (names or address not in OF_SEVERAL):
            yield address, operations
        for name in names or [""]:
            if address not in OF_ALL or name and address in TOO:
                yield (f"/{name}" if name else "") + address, _of_table(operations, name)


def _of_table(operations, name):
    """The operations of one of several tables, whose names have that of the table before them."""
    operations = copy.deepcopy(operations)
    for operation in operations.values() if name else ():
        operation["operationId"] = f"{name}.{operation['operationId']}"
    return operations


def _add_errors(operation, address, method):
    codes = [*ALL, *(SECURED if "security" not in operation else ()), *(POSTED if method == "post" else ()), *MORE.get(address, ())]
    for status in sorted({STATUS[code] for code in codes}):
        those = [code for code in codes if STATUS[code] == status]
        operation["responses"].setdefault(str(status), _error(those))


def _error(codes):
    schema = {"allOf": [{"$ref": "#/components/schemas/Error"}, {"properties": {"code": {"enum": codes}}}]}
    return {"description": "The door's own: " + ", ".join(codes) + ".", "content": {"application/json": {"schema": schema}}}
