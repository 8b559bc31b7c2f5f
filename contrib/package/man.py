#!/usr/bin/env python3
"""Makes a manual page of parts of the documents, so that each thing is written down once.

    contrib/package/man.py sfu 1 VERSION > sfu.1
    contrib/package/man.py sfu.toml 5 VERSION > sfu.toml.5

Of Markdown it knows what the documents use: headings, paragraphs, lists, tables, quoted code, `code`, **bold** and links.
"""
import pathlib
import re
import sys

DOCS = pathlib.Path(__file__).resolve().parents[2] / "docs"
EXAMPLES = DOCS.parent / "examples"

SFU_HEAD = """
## NAME

sfu - selective forwarding unit for RTP, and the sets of rates that it announces

## SYNOPSIS

```
sfu serve FILE [--ticks N] [--status SECONDS] [--control PATH] [--numbers PATH] [--log-time] [--log-why]
          [--record PATH [--record-limit BYTES] [--record-next]]
sfu ask PATH WORD..
sfu page PATH ADDRESS [--anyone] [--host NAME]
sfu sdp FILE ENDPOINT..
sfu settings FILE
sfu replay FILE [--only-leg N] [--only-endpoint N] [--from MOMENT] [--events] [--gaps MS] [--utc]
           [--other-settings] < SCRIPT
sfu bound --sender N < LINES
sfu check FILE
{draw}sfu --help
```

## DESCRIPTION

`sfu` is the server in the middle of a conference (RFC 7667, section 3.7): each endpoint sends its media once, to the unit, and
the unit sends it what it subscribes to. `sfu serve` runs it on a UDP socket, or on two, by the settings in a file (**sfu.toml**(5)).
`sfu ask` asks and steers a unit that runs, `sfu page` shows it by HTTP, `sfu sdp` describes what endpoints receive, and `sfu settings`
checks a file. `sfu replay` plays a script through the unit. `sfu bound` prints the set of rates that is announced for the requests in a list of
datagrams, with a certificate; `sfu check` says whether such a certificate holds.{drawn}
"""

TOML_HEAD = """
## NAME

sfu.toml - settings of a conference for sfu(1)

## DESCRIPTION

`sfu serve FILE` and `sfu replay FILE` read such a file. The package's services read `/etc/sfu/serve.toml` (`sfu.service`) and
`/etc/sfu/NAME.toml` (`sfu@NAME.service`).
"""

SERVICES = """
## SERVICES

`systemctl enable --now sfu` serves one conference by `/etc/sfu/serve.toml`; `systemctl enable --now sfu@NAME` one more by
`/etc/sfu/NAME.toml`, each in a process of its own, as the user `sfu`. Neither starts by itself. What they say stands in
`journalctl -u sfu`.
"""


def sections(name):
    """Returns the sections of a document, by their headings of the second level."""
    found, heading = {}, None
    for line in (DOCS / name).read_text().splitlines():
        if line.startswith("## "):
            heading = line[3:]
            found[heading] = []
        elif heading:
            found[heading].append(line)
    return {it: "\n".join(lines) for it, lines in found.items()}


def inline(text):
    """Returns a line of text in roff, with `code` and **bold** in bold."""
    text = re.sub(r"!?\[([^\]]*)\]\([^)]*\)", r"\1", text)
    parts, out = re.split(r"(`[^`]+`|\*\*[^*]+\*\*)", text), []
    for part in parts:
        marked = part[:1] == "`" or part[:2] == "**"
        plain = part.strip("`") if part[:1] == "`" else part.strip("*") if part[:2] == "**" else part
        plain = plain.replace("\\", "\\e").replace("-", "\\-").replace("'", "\\(aq").replace("…", "...").replace("|", "|")
        out.append(f"\\fB{plain}\\fR" if marked else plain)
    line = "".join(out)
    return "\\&" + line if line[:1] in ".'" else line


def cells(row):
    return [it.strip() for it in row.strip().strip("|").split("|")]


def roff(markdown):
    """Returns the lines of roff for a piece of Markdown."""
    out, lines, at = [], markdown.splitlines(), 0
    while at < len(lines):
        line = lines[at]
        at += 1
        if line.startswith("```"):
            out.append(".PP\n.nf\n.RS 4")
            while not lines[at].startswith("```"):
                text = lines[at].replace("\\", "\\e").replace("-", "\\-").replace("'", "\\(aq")
                out.append("\\&" + text if text[:1] in ".'" else text)
                at += 1
            out.append(".RE\n.fi")
            at += 1
        elif line.startswith("### "):
            out.append(f".SS {inline(line[4:])}")
        elif line.startswith("## "):
            out.append(f".SH {inline(line[3:] if '`' in line else line[3:].upper())}")
        elif line.startswith("|"):
            rows = [line]
            while at < len(lines) and lines[at].startswith("|"):
                rows.append(lines[at])
                at += 1
            # A row is a term with what the other columns say; the header says what they are.
            heads = cells(rows[0])
            for row in rows[2:]:
                term, *rest = cells(row)
                said = [f"{head}: {it}" if head and k else it for k, (head, it) in enumerate(zip(heads[1:], rest)) if it]
                out.append(f".TP\n{inline(term) or chr(92) + '&'}\n{inline('; '.join(said)) or chr(92) + '&'}")
        elif line.strip():
            # A paragraph or an item of a list goes to the next line that begins something else.
            while at < len(lines) and re.match(r" *[^ |`#-]| *`[^`]| *-[^ ]", lines[at]):
                line += " " + lines[at].strip()
                at += 1
            begin, text = (".IP \\(bu 3", line[2:]) if line.startswith("- ") else (".PP", line.strip())
            if "--unproved" not in text:
                out.append(f"{begin}\n{inline(text)}")
    return out


def page(name, number, version, markdown):
    head = [f'.TH {name} {number} "" "Linercyan {version}" "Linercyan"', ".nh", ".ad l"]
    print("\n".join(head + roff(markdown)))


def main(name, number, version):
    operating, formats = sections("OPERATING.md"), sections("FORMATS.md")
    if name == "sfu":
        draw = next((it for it in formats if it.startswith("`sfu draw")), "")
        head = SFU_HEAD.format(
            draw="sfu draw --sender N < LINES > SET.svg\n" if draw else "",
            drawn=" `sfu draw`\ndraws the requests and the set as an SVG." if draw else "",
        )
        said = [head, "## SERVING", (DOCS / "OPERATING.md").read_text().split("\n## ")[0].split("\n", 1)[1]]
        for heading in operating:
            if heading not in ("Settings",):
                said.append(f"## {heading}\n{operating[heading]}")
        for heading in formats:
            if heading.startswith("`sfu ") or heading in ("Statuses", "The certificate"):
                said.append(f"## {heading}\n{formats[heading]}")
        said += [SERVICES, "## SEE ALSO\n\n**sfu.toml**(5), and the documents under `/usr/share/doc/sfu`."]
    else:
        example = (EXAMPLES / "serve.toml").read_text()
        said = [TOML_HEAD, "## KEYS", formats["Settings of the unit"], "## VALUES TO BEGIN WITH", operating["Settings"]]
        said += ["## EXAMPLE", f"```\n{example}```", "## SEE ALSO\n\n**sfu**(1)"]
    page(name, number, version, "\n".join(said).replace("./sfu ", "sfu "))


if __name__ == "__main__":
    main(*sys.argv[1:])
