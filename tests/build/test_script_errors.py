"""Errors of the scripts that build, test, pack and release, which no other test provokes."""
from __future__ import annotations

from pathlib import Path

import pytest

from tests.shared.script_errors import ScriptError, check_error, errors_of

# a PATH that has only these programs, and a kit that is none
FEW_COMMANDS = """\
mkdir p
for it in bash dirname sed; do ln -s "$(type -P $it)" p; done
printf '#!/bin/sh\\n' > p/rt
chmod +x p/rt
PATH=$PWD/p
"""
# a kit that is none, and a C compiler that finds itself
NO_KIT = """\
mkdir p
printf '#!/bin/sh\\necho /no/kit\\n' > p/rt
printf '#!/bin/sh\\necho $0\\n' > p/cc
chmod +x p/*
PATH=$PWD/p:$PATH
"""
# what ./release calls, of which nothing does anything
RELEASE = """\
cp "$TOP/release" .
mkdir packaging p
for it in p/rt p/cc p/dpkg-deb p/cargo p/python3 packaging/source build; do
    printf '#!/bin/sh\\n' > $it
done
printf '#!/bin/sh\\nprintf "1\\\\n2\\\\n3\\\\n"\\n' > packaging/link
chmod +x p/* packaging/* build
PATH=$PWD/p:$PATH
"""
COMMIT = """\
git init -q .
git add .
git -c user.name=a -c user.email=a@b commit -qm x
"""
# programs of one version
PROGRAMS = """\
mkdir bin
for it in twogtp gtp_engine gtp_check; do printf '#!/bin/sh\\necho %s 1.0\\n' $it > bin/$it; done
chmod +x bin/*
"""
CHANGELOG = "echo '## [1.0]' > CHANGELOG.md\n"
# a release over an earlier one, of which nothing may be left
RUN = "mkdir dist; touch dist/old; ./release; status=$?; ls -A dist >&2; exit $status"
NOT_COMMITTED = "is not committed: commit or remove it, since a release is made of a commit alone\n"
# a PATH on which some tools of a release are missing
FEW_TOOLS = """\
rm p/cargo p/dpkg-deb
for it in bash dirname sed mkdir touch flock find tar gzip awk git ls rm; do
    ln -s "$(type -P $it)" p
done
PATH=$PWD/p
"""
# an old cargo, and none of the packages of other crates
OLD_CARGO = """\
mkdir p
printf '#!/bin/sh\\necho "cargo 1.86.0 (x)"\\n' > p/cargo
printf '#!/bin/sh\\nexit 1\\n' > p/dpkg-query
chmod +x p/*
PATH=$PWD/p:$PATH
"""
CRATES = ["arrayvec", "thiserror", "rand-pcg", "rand-core", "clap"]
OF_CRATES = " ".join(f"librust-{crate}-dev" for crate in CRATES)
# a C compiler that finds no static library
NO_LIBRARY = "printf '#!/bin/sh\\necho nowhere\\n' > p/cc\n"
OTHER_VERSION = "sed -i s/1.0/1.1/ bin/gtp_engine\n"

ERRORS = {
    "build": [
        ('"$TOP/build" --proved --cargo', 2, "give only one of --cargo and --proved\n{usage}"),
        (
            '"$TOP/build" --gate nowhere',
            2,
            "--gate needs a file after it, and 'nowhere' is none\n{usage}",
        ),
        ('"$TOP/build" --fast', 2, "there is no option --fast\n{usage}"),
        (
            '"$TOP/build" go_base',
            2,
            "there is no program 'go_base': "
            "name one such as twogtp, gtp_engine or gtp_check, or library\n{usage}",
        ),
        (
            f'{FEW_COMMANDS}"$TOP/build" twogtp',
            1,
            "there is no flock (apt-get install util-linux)\n",
        ),
        (
            f'{NO_KIT}XDG_CACHE_HOME=$TOP/no "$TOP/build" twogtp',
            1,
            "{top}/no/vintsaky is in the clone, which rt ci reads: "
            "set XDG_CACHE_HOME to a directory elsewhere\n",
        ),
        (
            f'{NO_KIT}touch a; XDG_CACHE_HOME=$PWD/a "$TOP/build" twogtp',
            1,
            "..{here}/a/vintsaky can't be written: set XDG_CACHE_HOME to a directory that can\n",
        ),
        (
            f'{FEW_COMMANDS}"$TOP/cargo/build" twogtp',
            1,
            "there is no python3, which a build by cargo needs (3.9 or later)\n",
        ),
    ],
    "demo": [('"$TOP/demo" match now', 2, "there is no demo 'match now'\n{usage}")],
    "test": [('"$TOP/test" stages', 2, "there is no test 'stages'\n{usage}")],
    "release": [
        ('"$TOP/release" --final --final', 2, "--final is given twice\n{usage}"),
        (
            "\"$TOP/release\" --gate '1 passed, 0 failed' --gate '2 passed, 0 failed'",
            2,
            "--gate is given twice\n{usage}",
        ),
        (
            '"$TOP/release" --gate fine',
            2,
            "--gate needs the last line of ./test after it, such as '9 passed, 0 failed'\n{usage}",
        ),
        ('"$TOP/release" 1.0', 2, "there is no option '1.0'\n{usage}"),
        (f"{RELEASE}touch dist; ./release", 1, "..dist/ can't be made\n"),
        (
            f"{RELEASE}./release",
            1,
            "..there is no commit here: run ./release in a clone of the repository\n",
        ),
        (
            f"{RELEASE}echo exit 1 >> build\n{COMMIT}./release",
            1,
            "the programs and the library are not built\n",
        ),
        (f"{RELEASE}{COMMIT}./release", 1, "..bin/twogtp does not run\n"),
        (
            f"{RELEASE}{PROGRAMS}{OTHER_VERSION}{COMMIT}./release",
            1,
            "the programs have two versions, 1.0 and gtp_engine 1.1\n",
        ),
        (
            f"{RELEASE}{PROGRAMS}{CHANGELOG}{COMMIT}./release",
            1,
            "..the pages can't be made\n",
        ),
        (
            f"{RELEASE}{FEW_TOOLS}{RUN}",
            1,
            "there is no dpkg-deb (dpkg)\nrelease: there is no cargo (cargo-web)\n",
        ),
        (f"{RELEASE}touch a\n{COMMIT}echo b > a\n{RUN}", 1, f"a {NOT_COMMITTED}"),
        (f"{RELEASE}{COMMIT}touch new\n{RUN}", 1, f"new {NOT_COMMITTED}"),
        (
            f"{RELEASE}{PROGRAMS}echo '## [0.9]' > CHANGELOG.md\n{COMMIT}{RUN}",
            1,
            "CHANGELOG.md has no section [1.0]\n",
        ),
        (
            f"{RELEASE}{PROGRAMS}{CHANGELOG}{COMMIT}./release --final",
            1,
            "there is no tag v1.0: git tag v1.0\n",
        ),
        (
            f"{RELEASE}{PROGRAMS}{CHANGELOG}{COMMIT}git tag v1.0\ntouch new\n{COMMIT}"
            "./release --final 2>&1 | sed 's/[0-9a-f]\\{40\\}/ID/' >&2; exit ${PIPESTATUS[0]}",
            1,
            "the tag v1.0 names another commit, ID\n",
        ),
    ],
    "packaging/link": [
        (
            f'{FEW_COMMANDS}"$TOP/packaging/link" a b c',
            1,
            "there is no cc, which finds the C library (apt-get install gcc libc6-dev)\n",
        ),
        (f'{NO_KIT}"$TOP/packaging/link" a b c', 3, "a is not there\n"),
        (
            f'{NO_KIT}{NO_LIBRARY}"$TOP/packaging/link" --library',
            1,
            "there is no static C library: rcrt1.o is not there (apt-get install gcc libc6-dev)\n",
        ),
    ],
    "packaging/source": [
        (
            f'{OLD_CARGO}"$TOP/packaging/source" --look',
            1,
            "cargo 1.86.0 (x) is too old: 1.87 or later is needed (apt-get install cargo-web)\n"
            f"packaging/source: there is no librust-arrayvec-dev (apt-get install {OF_CRATES})\n",
        ),
    ],
    "packaging/notices": [
        (
            f'{NO_KIT}touch a; "$TOP/packaging/notices" $PWD/a/b',
            1,
            "..{here}/a/b can't be made\n",
        )
    ],
    "packaging/pkg_config": [
        (
            "mkdir library packaging; touch library/vintsaky.h; "
            'cp "$TOP/packaging/pkg_config" packaging; packaging/pkg_config /usr',
            1,
            "library/vintsaky.h has no VINTSAKY_VERSION\n",
        ),
    ],
    "packaging/shared": [(f'{NO_KIT}"$TOP/packaging/shared" a b', 1, "a is not there\n")],
}


@pytest.mark.parametrize("error", errors_of(ERRORS), ids=str)
def test_error(error: ScriptError, environment: dict[str, str], tmp_path: Path) -> None:
    check_error(error, environment, tmp_path)
