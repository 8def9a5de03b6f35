"""Whether the description is one: by the official schema, by kin-openapi and by JSON::Validator."""
import json
import os
import shutil
import subprocess
from pathlib import Path

import jsonschema

HERE = Path(__file__).resolve().parent
OFFICIAL = Path("/usr/share/openapi-specification/schemas/v3.0/schema.json")
# it throws where the description breaks the schema of OpenAPI 3.0 that it brings along
PERL = 'use JSON::Validator; my @found = @{JSON::Validator->new->schema($ARGV[0])->schema->errors}; print "$_\\n" for @found; exit @found > 0'


def ran(words, **how):
    told = subprocess.run([str(word) for word in words], stdin=subprocess.DEVNULL, stdout=subprocess.PIPE, stderr=subprocess.STDOUT, text=True, **how)
    return (told.returncode, told.stdout.strip())


def by_official_schema(description):
    validator = jsonschema.Draft4Validator(json.loads(OFFICIAL.read_text()))
    return [f"{'/'.join(map(str, error.path))}: {error.message[:200]}" for error in validator.iter_errors(description.plain)]


def by_kin_openapi(file, folder):
    shutil.copy(HERE / "validate.go", folder)
    settings = {**os.environ, "GO111MODULE": "off", "GOPATH": "/usr/share/gocode", "GOCACHE": f"{folder}/cache", "GOFLAGS": ""}
    built = ran(["go", "build", "-o", "validate", "validate.go"], cwd=folder, env=settings)
    return built if built[0] else ran([f"{folder}/validate", file])


def by_json_validator(file):
    return ran(["perl", "-e", PERL, file])
