#!/usr/bin/env python3
"""Writes the man page registry(1), or a completion for bash, from what the program's own --help says.

    manual.py man|completion PROGRAM
"""
import re
import subprocess
import sys

END = """\
.SH EXIT STATUS
.TP
.B 0
Done.
.TP
.B 1
A refused command.
.TP
.B 2
The command line.
.TP
.B 3
Storage, schema, memory or damage.
.TP
.B 4
A socket, reading or writing failed.
.SH FILES
.TP
.I /var/lib/firkhen/registry.db
The database of the service
.BR firkhen ;
the log
.I registry.db-wal
beside it is part of it, and so is
.IR registry.db-contents ,
which a registry has that was made with
.BR "\\-\\-layout beside" ,
as the service does.
One process has them open at a time.
.TP
.I /run/firkhen/orders.sock
Where the service takes orders from its own user:
.IP
.EX
runuser \\-u firkhen \\-\\- registry usage \\-\\-orders /run/firkhen/orders.sock
.EE
.TP
.I /etc/default/firkhen
The address on which the service listens, where it takes orders, and further words for it.
.TP
.IR /etc/nginx/sites-available/firkhen ", " /etc/nginx/firkhen
A server of nginx to put in front of it.
.SH SEE ALSO
.I /usr/share/doc/firkhen
"""


def asked(*words):
    return subprocess.run(words, stdout=subprocess.PIPE, check=True).stdout.decode()


def rows(text, heading):
    """The lines under a heading, each in two columns."""
    found = re.search(rf"^{heading}:\n((?:  .*\n?)+)", text, re.MULTILINE)
    return [re.split(r" {2,}", line.strip(), maxsplit=1) for line in found[1].splitlines()] if found else []


class Command:
    def __init__(self, program, name):
        text = asked(program, name, "--help")
        self.name, self.about = name, text.splitlines()[0]
        self.usage = re.search(r"^Usage: (?:registry )?(.*)$", text, re.MULTILINE)[1]
        self.options = rows(text, "Options")


class Help:
    def __init__(self, program):
        text = asked(program, "--help")
        self.version, self.about = asked(program, "--version").strip(), text.splitlines()[0]
        # (`help` is of the library that reads command lines, and says nothing else than --help)
        self.commands = [Command(program, name) for name, _ in rows(text, "Commands") if name != "help"]
        self.options = rows(text, "Options")


def roff(text):
    return re.sub(r"^([.'])", r"\\&\1", text.replace("\\", "\\e").replace("-", "\\-"))


def man(told):
    yield f'.TH REGISTRY 1 "" "{told.version}" "User Commands"'
    yield f".SH NAME\nregistry \\- {roff(told.about)}"
    yield ".SH SYNOPSIS\n.B registry\n.I COMMAND\n.RI [ OPTIONS ]"
    yield ".SH OPTIONS"
    for words, says in told.options:
        yield f".TP\n.B {roff(words)}\n{roff(says)}"
    yield ".SH COMMANDS"
    for command in told.commands:
        yield f".SS {command.name}\n{roff(command.about)}.\n.PP\n.B registry {roff(command.usage)}"
        for words, says in command.options:
            yield f".TP\n.B {roff(words)}\n{roff(says)}"
    yield END.rstrip()


def long_options(options):
    return [it for words, _ in options for it in re.findall(r"--[a-z-]+", words)]


def completion(told):
    valued = {it for command in told.commands for words, _ in command.options if "<" in words for it in re.findall(r"--[a-z-]+", words)}
    names = " ".join(command.name for command in told.commands)
    yield "# Completion of `registry` for bash, made from its --help."
    yield "_registry()\n{"
    yield '  local word=${COMP_WORDS[COMP_CWORD]} before=${COMP_WORDS[COMP_CWORD - 1]} options=""\n  COMPREPLY=()'
    yield "  case $before in"
    yield '    --db | --orders | --token-file) compopt -o filenames; mapfile -t COMPREPLY < <(compgen -f -- "$word"); return ;;'
    yield "    --level) options='1 2 3' ;;"
    yield "    --layout) options='tables beside' ;;"
    yield "    --login) options='http https' ;;"
    yield f"    {' | '.join(sorted(valued - {'--db', '--orders', '--token-file', '--layout', '--level', '--login'}))}) return ;;"
    yield "  esac"
    yield f"  if ((COMP_CWORD == 1)); then options='{names} {' '.join(long_options(told.options))}'; fi"
    yield '  if [ -z "$options" ]; then\n    case ${COMP_WORDS[1]} in'
    for command in told.commands:
        yield f"      {command.name}) options='{' '.join(long_options(command.options))}' ;;"
    yield "    esac\n  fi"
    yield '  mapfile -t COMPREPLY < <(compgen -W "$options" -- "$word")'
    yield "}\ncomplete -F _registry registry"


def main():
    if len(sys.argv) != 3 or sys.argv[1] not in ("man", "completion"):
        print(__doc__.strip(), file=sys.stderr)
        return 2
    print("\n".join({"man": man, "completion": completion}[sys.argv[1]](Help(sys.argv[2]))))
    return 0


if __name__ == "__main__":
    sys.exit(main())
