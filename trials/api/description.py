"""docs/openapi.yaml, as a trial reads it."""

import re

import jsonschema
import yaml


class Description:
    """The operations with their responses, all references followed."""

    def __init__(self, path):
        with open(path) as file:
            self.whole = yaml.safe_load(file)
        self.answers = {}
        for _, _, operation in self.operations():
            found = {int(status): self.followed(it) for status, it in operation["responses"].items()}
            self.answers[operation["operationId"]] = found

    def followed(self, part):
        """A part with what it refers to, at whatever depth, in its place."""
        while isinstance(part, dict) and "$ref" in part:
            found = self.whole
            for name in part["$ref"].removeprefix("#/").split("/"):
                found = found[name]
            part = found
        if isinstance(part, dict):
            return {name: self.followed(value) for name, value in part.items()}
        return [self.followed(value) for value in part] if isinstance(part, list) else part

    def operations(self):
        """Each method of each target with its operation."""
        for target, item in self.whole["paths"].items():
            for method in ("get", "post", "delete"):
                if method in item:
                    yield method.upper(), target, item[method]

    def responses(self):
        """Each response: its method, target, status and what is said of it."""
        for method, target, operation in self.operations():
            for status, response in self.answers[operation["operationId"]].items():
                yield method, target, status, response

    def contents(self):
        """Each schema with its example, of requests and responses, under a name."""
        for method, target, operation in self.operations():
            if "requestBody" in operation:
                yield f"{method} {target}", operation["requestBody"]["content"]["application/json"]
        for method, target, status, response in self.responses():
            yield f"{method} {target} {status}", response["content"]["application/json"]

    def fault(self, schema, value):
        """Why a value isn't of a schema, or nothing."""
        found = jsonschema.Draft4Validator(self.followed(schema)).iter_errors(value)
        return next((error.message for error in found), "")

    def response(self, method, target, status):
        """What is said of one answer, or None."""
        for one, place, number, response in self.responses():
            pattern = re.sub(r"\{[a-z]+\}", "[^/]+", place)
            if one == method and number == status and re.fullmatch(pattern, target):
                return response
        return None

    def numbers(self, kind):
        """Each number of a refusal, or of the front's errors, with its status."""
        found = set()
        for _, _, status, response in self.responses():
            found |= {(number, status) for number in response.get(kind, ())}
        return found


def errors_of(path):
    """The same of docs/API.md, in the table of what the front answers."""
    with open(path) as file:
        found = re.findall(r'^\| ([0-9]+) \| `\{"front":([0-9]+)\}` \|', file.read(), re.MULTILINE)
    return {(int(number), int(status)) for status, number in found}


def refusals_of(path):
    """The same of docs/REFUSALS.md, where a number has a status."""
    found = set()
    for line in open(path):
        cells = [cell.strip() for cell in line.split("|")]
        if len(cells) > 5 and cells[1].isdigit() and cells[4].isdigit():
            found.add((int(cells[1]), int(cells[4])))
    return found
