"""Fixed calls of byte-unit: words, standard input and output, exit status and standard error; and large inputs."""

import unicodedata

from program import Call, Result

# Parts of messages, and the greatest size.
START = "('B', 'K', 'M', 'G', 'T', 'P', 'E', 'Z', 'Y' or 'R' or no character is expected)"
BLANK = "no value can be found"
WIDTH = "not a number from 1 to 65535, or its negative"
NEEDS = "needs -d or --blanks, by which fields are separated"
TOTAL = "byte-unit: the total is 10^30 or more\n"
SPLIT = "byte-unit: a number and its unit were two operands; quote them as one, as in '5 KB'\n"
END = "at the end of the text"
NUMBER, NEGATIVE = "a size begins with a number as in '12' or '1.5'", "a size is not negative"
GROUPED, RATE = "digits are not grouped, and the point is '.'", "a size has no rate: leave out what it is per second"
GREATEST = b"999999999999999999999999999999"


def told(place, why, at=0, hint=None):
    """Returns a message on a field or an option; with the number of the first wrong character, or `END`, if given. That
    on a field has a hint: this one, or else, if it has no number where one is expected, what a number is."""
    where = at if at == END else f"character {at}"
    if hint is None:
        hint = NUMBER if place[:2] != "--" and (why == BLANK or why.endswith("is not a number")) else ""
    return f"byte-unit: {place}: {why}{f' ({where})' * bool(at)}{f'; hint: {hint}' * bool(hint)}\n"


def unit(c, expected=START):
    """Returns a message on a character that cannot be in a unit."""
    return f"the character '{c}' is incorrect {expected}"


def digit(c):
    """Returns a message on a character that is there in place of a digit."""
    return f"the character '{c}' is not a number"


def wrong(*texts):
    """Returns a message about the words of a call."""
    return "byte-unit: " + "\n\n".join([*texts, "For more information, try '--help'."]) + "\n"


def misused(*texts):
    """Returns a message about the words of a call, with a line on how it is called."""
    return wrong(*texts, "Usage: byte-unit [OPTION].. [SIZE]..")


def unknown(word):
    """Returns a message about a word that is no option."""
    return misused(f"unexpected argument '{word}' found", f"  tip: to pass '{word}' as a value, use '-- {word}'")


def field(text, quoted, why, at=0, hint=None):
    """Returns the arguments of `row` for a field that is not a size: it is copied, and its message has `quoted`. There
    is no hint for a text with characters that are not ASCII, but white space at its ends."""
    hint = hint if text.decode(errors="replace").strip().isascii() else ""
    return "--invalid=warn", text + b"\n", text + b"\n", 0, told(f"line 1: '{quoted}'", why, at, hint)


# What ls, df, ps and free print.
LISTING = b"total 24\n-rw-r--r-- 1 root root    512 Nov 27 10:00 a b\n-rwxr-xr-x 1 root root 486240 Nov 27 14:11 c\n"
DISKS = b"Filesystem      Size  Used Avail Use% Mounted on\n/dev/sda1        50G   20G   28G  42% /\n"
PROCESSES = b"USER         PID  VSZ   RSS COMMAND\nroot           1 166264 11888 /sbin/init\n"
MEMORY = b"               total        used        free\nMem:        24617312     2342512    16204460\n"
BETWEEN_BLANKS = [
    ("--blanks --field=5 --to=iec -p1", LISTING,
     LISTING.replace(b"    512", b"  512 B").replace(b" 486240", b" 474.8 KiB")),
    ("--blanks --header --field=2-4 --from=iec --to=plain", DISKS,
     DISKS.replace(b"        50G   20G   28G", b" 53687091200 21474836480 30064771072")),
    ("--blanks --header --field=3,4 --to=si -p1", PROCESSES,
     PROCESSES.replace(b" 166264 11888", b" 166.3 KB 11.9 KB")),
    ("--blanks --header --field=2- --to=iec -p1", MEMORY,
     MEMORY.replace(b"        24617312     2342512    16204460", b"        23.5 MiB     2.2 MiB    15.5 MiB")),
    ("--blanks --field=2", b"a\t1024\tb\n", b"a\t1 KiB\tb\n"),
    ("--blanks", b"  1024 x\n5000 x\n", b" 1 KiB x\n5 KB x\n"),
    ("--blanks --field=2- --invalid=warn", b"x 1024 \n", b"x 1 KiB \n", 0, told("line 1: field 3: ' '", BLANK, END)),
    ("--blanks --field=2 --padding=8", b"a  1024\n", b"a    1 KiB\n"),
    ("--blanks --field=2 --padding=-8", b"a  1024 b\n", b"a 1 KiB    b\n"),
    ("--blanks --field=5", b"total 12\n\n", b"total 12\n\n"),
    ("--blanks --field=1-2 --total", b"1 1024\n", b"1 B 1 KiB\n1.025 KB\n"),
]
SIZES = [
    (["1.5 KiB", "100MB", "1536"], b"", b"1.5 KiB\n100 MB\n1.5 KiB\n"),
    (["1 x"], b"", b"", 2, told("operand 1: '1 x'", unit("x"), 3)),
    ("", b"1 KB\n2 KB\n1 x\n3 KB\n", b"1 KB\n2 KB\n", 2, told("line 3: '1 x'", unit("x"), 3)),
    ("--invalid=fail", b"1 KB\n1 x\n3 KB\n", b"1 KB\n1 x\n3 KB\n", 2, told("line 2: '1 x'", unit("x"), 3)),
    ("--invalid=warn", b"1 x\n", b"1 x\n", 0, told("line 1: '1 x'", unit("x"), 3)),
    ("--invalid=ignore", b"1 x\n", b"1 x\n"),
    ("-d, --field=2 --invalid=fail", b"a,\xff,c\n", b"a,\xff,c\n", 2, told("line 1: field 2: '\\xff'", "not UTF-8")),
    ("-z", b"1 KB\x00100 MB\x00", b"1 KB\x00100 MB\x00"),
    ("-z", b"1 KB\x002 x", b"1 KB\0", 2, told("record 2: '2 x'", unit("x"), 3)),
    ("-- 1KB", b"", b"1 KB\n"),
    ("-- -1KB", b"", b"", 2, told("operand 1: '-1KB'", digit("-"), 1, NEGATIVE)),
    ([""], b"", b"", 2, told("operand 1: ''", BLANK, END)),
    (["1KB", "1KB\n2KB", "x"], b"", b"1 KB\n", 2,
     told("operand 2: '1KB\\u{a}2KB'", unit("\\n", "('i' or no character is expected)"), 4)),
    (["--invalid=warn", "1\n2", "x"], b"", b"1\n2\nx\n", 0,
     told("operand 1: '1\\u{a}2'", unit("\\n"), 2) + told("operand 2: 'x'", digit("x"), 1)),
    (["-z", "1KB\n", "2KB"], b"", b"1 KB\x002 KB\0"),
    (["-d", "\n", "--field=-", "1000\n1024"], b"", b"1 KB\n1 KiB\n"),
    ("5 KB", b"", b"5 B\n", 2, told("operand 2: 'KB'", digit("K"), 1) + SPLIT),
    ("--invalid=fail x 1.5 gib", b"", b"x\n2 B\ngib\n", 2,
     told("operand 1: 'x'", digit("x"), 1) + told("operand 3: 'gib'", digit("g"), 1) + SPLIT),
    ("--invalid=warn 5 KB", b"", b"5 B\nKB\n", 0, told("operand 2: 'KB'", digit("K"), 1)),
    ("5K KB", b"", b"5 KB\n", 2, told("operand 2: 'KB'", digit("K"), 1)),
    (["5", " "], b"", b"5 B\n", 2, told("operand 2: ' '", BLANK, END)),
    ("--header 4096K", b"", b"4.096 MB\n"),
    ("--header=2 1KB x", b"", b"1 KB\n", 2, told("operand 2: 'x'", digit("x"), 1)),
    ("", b"", b""), ("", b"1 KB", b"1 KB\n"),
    ("", b"\n", b"", 2, told("line 1: ''", BLANK, END)),
    ("--invalid=ignore", b"\n\n", b"\n\n"),
    ("-z", b"1 KB", b"1 KB\0"),
    ("", b"1 KB\r\n2 KB\r\n", b"1 KB\n2 KB\n"),
]

HEADERS_AND_TOTALS = [
    ("--total", b"", b"0 B\n"), ("--total --bits", b"", b"0 b\n"),
    ("--total", b"900 RB\n100 RB\n", b"900 RB\n100 RB\n", 2, TOTAL),
    ("--header", b"", b""), ("--header", b"name", b"name\n"),
    ("--header", b"name\nx\n", b"name\n", 2, told("line 2: 'x'", digit("x"), 1)),
    ("--header=0", b"1 KB\n", b"1 KB\n"),
    ("--header=5 --total", b"x\ny\n", b"x\ny\n0 B\n"),
    ("--header=18446744073709551615", b"x\n", b"x\n"),
    ("--total --to=plain", GREATEST + b"B\n", (GREATEST + b"\n") * 2),
    ("--total --to=plain", GREATEST + b"B\n1B\n", GREATEST + b"\n1\n", 2, TOTAL),
    ("--total --to=plain", (GREATEST + b"B\n") * 400, (GREATEST + b"\n") * 400, 2, TOTAL),
    ("--total --invalid=fail", b"1 KB\nx\n2 KB\n", b"1 KB\nx\n2 KB\n3 KB\n", 2, told("line 2: 'x'", digit("x"), 1)),
    ("--total --max=1KB", b"1 KB\n2 KB\n", b"1 KB\n2 KB\n3 KB\n", 3, told("line 2: '2 KB'", "above the maximum")),
    ("--padding=6 --total", b"1 KB\n", b"  1 KB\n  1 KB\n"),
    ("--to=GB -p 0 --total 400MB 400MB", b"", b"0 GB\n0 GB\n1 GB\n"),
]

LIMITS = [
    ("--max=1000", b"1000\n", b"1 KB\n"),
    ("--max=999", b"1000\n", b"1 KB\n", 3, told("line 1: '1000'", "above the maximum")),
    ("--min=1000", b"999\n", b"999 B\n", 3, told("line 1: '999'", "below the minimum")),
    ("--min=1000", b"1000\n", b"1 KB\n"),
    ("--max=1KB --invalid=fail", b"2 KB\nx\n", b"2 KB\nx\n", 2,
     told("line 1: '2 KB'", "above the maximum") + told("line 2: 'x'", digit("x"), 1)),
    ("--max=1KB --min=2KB", b"1500\n", b"1.5 KB\n", 3,
     told("line 1: '1500'", "above the maximum") + told("line 1: '1500'", "below the minimum")),
    ("--bits --max=1KB --to=plain", b"8000\n8001\n", b"8000\n8001\n", 3, told("line 2: '8001'", "above the maximum")),
    ("-i --max=8kb --to=plain", b"8000\n8001\n", b"8000\n8001\n", 3, told("line 2: '8001'", "above the maximum")),
    ("--max=8kb --to=plain", b"1000\n1001\n", b"1000\n1001\n", 3, told("line 2: '1001'", "above the maximum")),
    (["--max=" + GREATEST.decode()], b"1\n", b"1 B\n"),
    ("--max=0", b"1\n", b"1 B\n", 3, told("line 1: '1'", "above the maximum")),
    (["--min=" + GREATEST.decode()], b"1\n", b"1 B\n", 3, told("line 1: '1'", "below the minimum")),
]

FORMS = [
    ("--bits --to=plain", b"1 B\n", b"8\n"), ("-i --to=plain", b"8 b\n", b"8\n"), ("--to=plain", b"8 b\n", b"1\n"),
    (["-i", "--to=kb", "8 kb"], b"", b"8 KB\n"), (["--to=kb", "8 kb"], b"", b"8 Kb\n"),
    (["-i", "--to=kbit", "8 kb"], b"", b"64 Kb\n"), (["-i", "--to=b", "8 kb"], b"", b"8000 B\n"),
    (["--bits", "--to=K", "1 KB"], b"", b"8 Kb\n"),
    ("-p 0 --to=KB", b"1500\n2500\n2501\n", b"2 KB\n2 KB\n3 KB\n"),
    ("-p 28 1073741825", b"", b"1.073741825 GB\n"),
    ("-H", b"123456789\n", b"117.7 MiB\n"), ("-H -p 2", b"123456789\n", b"117.74 MiB\n"),
    ("--to=MB --human-readable", b"123456789\n", b"123.5 MB\n"), ("-H --to=exact", b"1500\n", b"1.5 KB\n"),
    ("-H", b"1000\n1000000\n2000000\n", b"1000 B\n976.6 KiB\n1.9 MiB\n"), ("--bits -H", b"1000000\n", b"976.6 Kib\n"),
    ("-H --to=auto 1000000", b"", b"1.0 MB\n"), ("-p29 -H 1Ki", b"", b"1." + b"0" * 29 + b" KiB\n"),
    ("--to=auto", b"1000\n1024\n999\n", b"1 KB\n1 KiB\n999 B\n"), ("-p2 --to=plain 1.5KiB", b"", b"1536\n"),
    ("-p1 --to=KiB 2.25KiB 2.75KiB", b"", b"2.2 KiB\n2.8 KiB\n"), ("-p1 123456789", b"", b"123456789 B\n"),
    ("-p6", b"123456789\n", b"123.456789 MB\n"),
    ("-p30 --to=GiB 1073741825", b"", b"1.000000000931322574615478515625 GiB\n"),
    ("-p 1001 --to=KB 1", b"", b"0.001" + b"0" * 998 + b" KB\n"),
    ("--to=Ki", b"1024\n", b"1 KiB\n"),
    (["--to= GiB "], b"1024\n", b"0.00000095367431640625 GiB\n"),
    ("-zip2 --to=kb 1234567", b"", b"1234.57 KB\0"),
    ("--padding=1", b"1 KB\n", b"1 KB\n"), ("--padding=6", b"1 KB\n", b"  1 KB\n"),
    ("--padding=-6", b"1 KB\n", b"1 KB  \n"), ("--padding -6", b"1 KB\n", b"1 KB  \n"),
    ("--padding=65535", b"1 KB\n", b" " * 65531 + b"1 KB\n"),
    ("--padding=-65535", b"1 KB\n", b"1 KB" + b" " * 65531 + b"\n"),
    ("--padding=6 --invalid=ignore", b"x\n", b"x\n"),
]

PREFIXES = [
    *((f"--from={word} --to=plain", b"1K\n1Ki\n1KB\n1 kib\n1Kb\n8 b\n", b"1000\n1024\n1000\n128\n125\n1\n")
      for word in ("auto", "si", "iec-i")),
    ("--from=iec --to=plain", b"1K\n1Ki\n1KB\n1 kib\n1Kb\n8 b\n", b"1024\n1024\n1024\n128\n128\n1\n"),
    ("--from=iec --bits --to=plain 1K 1KB", b"", b"1024\n8192\n"),
    ("--from=iec -i --to=plain 1kb", b"", b"1024\n"),
    (["-d", "\\t", "--from=iec", "--to=plain"], b"2.9M\t.\n16K\t./a\n", b"3040871\t.\n16384\t./a\n"),
    ("--from=iec --max=1K --min=1K", b"1023\n1K\n1025\n", b"1023\n1 KiB\n1025\n", 3,
     told("line 1: '1023'", "below the minimum") + told("line 3: '1025'", "above the maximum")),
    ("--bits --from=iec --max=1K --min=1Kb", b"1023\n1024\n1025\n", b"1023\n1 Kib\n1025\n", 3,
     told("line 1: '1023'", "below the minimum") + told("line 3: '1025'", "above the maximum")),
    # A decimal unit would be read as the binary one.
    ("--from=iec", b"5\n1000\n1K\n1.5K\n1000K\n1MB\n", b"5\n1000\n1 KiB\n1.5 KiB\n1024000\n1 MiB\n"),
    ("--from=iec --bits 7 1000 1K 12Mb", b"", b"7\n1000\n1 Kib\n12 Mib\n"),
    ("--from=iec -p0 1536 2K", b"", b"1536\n2 KiB\n"), ("--from=iec -p1 1536", b"", b"1.5 KiB\n"),
    ("--from=iec --total --padding=9 --suffix=/s 1000 1K", b"", b"   1000/s\n  1 KiB/s\n   2024/s\n"),
    ("--from=iec --to=KB 1000", b"", b"1 KB\n"), ("--from=iec --to=si 1000", b"", b"1 KB\n"),
    ("--from=iec --invalid=warn 900RB 1x", b"", b"900RB\n1x\n", 0,
     told("operand 1: '900RB'", "the value 900 exceeds the valid range")
     + told("operand 2: '1x'", unit("x"), 2)),
]

# What pg_size_pretty of PostgreSQL prints, and other words.
WORDS = [
    ("--from=iec --words", b"8192 bytes\n10 kB\n20 MB\n", b"8 KiB\n10 KiB\n20 MiB\n"),
    ("-d, --field=2 --header --from=iec --words --to=plain --total", b"name,size\na,5 bytes\nb,64 kB\nc,10 GB\n",
     b"name,size\na,5\nb,65536\nc,10737418240\n10737483781\n"),
    ("--words --bits --to=plain", b"2 octets\n3 Bits\n1 KIBIBYTE\n1.5 Kbyte\n", b"16\n3\n8192\n12000\n"),
    ("--from=iec --words --to=plain 10MegaBytes 8kilobits", b"", b"10485760\n1024\n"),
    (["--max", "5 kilobytes", "--words"], b"5000\n5001 bytes\n", b"5 KB\n5.001 KB\n", 3,
     told("line 2: '5001 bytes'", "above the maximum")),
    (["--words", "--suffix=/s", "5 bytes/s"], b"", b"5 B/s\n"),
    ("--words --invalid=warn 1000ronnabytes", b"", b"1000ronnabytes\n", 0,
     told("operand 1: '1000ronnabytes'", "the value 1000 exceeds the valid range")),
    (["--words", "5 byte s"], b"", b"", 2,
     told("operand 1: '5 byte s'", unit("y", "('i' or no character is expected)"), 4)),
    (["--invalid=warn", "5 bytes", "1 Mbps", "1,024", "2 gigs", "3 kibibit/s"], b"",
     b"5 bytes\n1 Mbps\n1,024\n2 gigs\n3 kibibit/s\n", 0,
     told("operand 1: '5 bytes'", unit("y", "('i' or no character is expected)"), 4,
          "write 'B', or read it with the option 'words'")
     + told("operand 2: '1 Mbps'", unit("p", "('i' or no character is expected)"), 5, RATE)
     + told("operand 3: '1,024'", unit(","), 2, GROUPED)
     + told("operand 4: '2 gigs'", unit("g", "('B' or 'b' or no character is expected)"), 5, "write 'GB'")
     + told("operand 5: '3 kibibit/s'", unit("b", "('t' is expected)"), 7, RATE)),
    ("--no-hints --invalid=warn x -- -1", b"", b"x\n-1\n", 0,
     told("operand 1: 'x'", digit("x"), 1, "") + told("operand 2: '-1'", digit("-"), 1, "")),
]

REPEATED = [
    ("--to=si --to=plain 1K", b"", b"1000\n"), ("-d, -d; --field=2", b"1K;2K\n", b"1K;2 KB\n"),
    ("-ii 1kb", b"", b"1 KB\n"), ("-p1 --precision=2 --to=K 1234", b"", b"1.23 KB\n"),
    ("--header=2 --header", b"x\n1K\n", b"x\n1 KB\n"), ("--max=1 --max=2K --total --total 1K", b"", b"1 KB\n1 KB\n"),
    ("--from=iec --from=si --to=plain 1K", b"", b"1000\n"),
    ("--inv=ignore --tot --fr iec --hum --s=/s x 1K", b"", b"x\n1.0 KiB/s\n1.0 KiB/s\n"),
]

SUFFIXES = [
    ("--suffix=/s", b"1500/s\n1.5 KB\n1 KiB/s\n", b"1.5 KB/s\n1.5 KB/s\n1 KiB/s\n"),
    ("--suffix /s --total --to=MiB -p1", b"1MiB/s\n2MiB\n", b"1.0 MiB/s\n2.0 MiB/s\n3.0 MiB/s\n"),
    ("--suffix=/s --padding=9 --to=plain 1K", b"", b"   1000/s\n"),
    ("--suffix=ps --padding=-9 --to=Mb -p0 5Mbps", b"", b"5 Mbps   \n"),
    ("--suffix=/s --max=1K 2K/s", b"", b"2 KB/s\n", 3, told("operand 1: '2K/s'", "above the maximum")),
    ("--suffix=/s --invalid=warn /s 1x/s 1/s/s", b"", b"/s\n1x/s\n1/s/s\n", 0, told("operand 1: '/s'", BLANK, END)
     + told("operand 2: '1x/s'", unit("x"), 2) + told("operand 3: '1/s/s'", unit("/"), 2, RATE)),
    ("--suffix=/s --invalid=warn 1K/S", b"", b"1K/S\n", 0,
     told("operand 1: '1K/S'", unit("/", "('B' or 'b' or no character is expected)"), 3, RATE)),
    ("-i --suffix=/s --invalid=warn 1k/S", b"", b"1k/S\n", 0,
     told("operand 1: '1k/S'", unit("/", "('B' or no character is expected)"), 3, RATE)),
    ("--suffix=/s", b"1 KB/s\r\n2 KB/s \t\n3 KB\r\n", b"1 KB/s\n2 KB/s\n3 KB/s\n"),
    ("--suffix=/s -d, --field=2", b"a,1 KB/s\r\n", b"a,1 KB/s\n"),
    (["--suffix=/s", "1 KB/s\u3000", "1 KB/s\u00a0"], b"", b"1 KB/s\n1 KB/s\n"),
    (["--suffix=/s ", "1 KB/s ", "2 KB/s  "], b"", b"1 KB/s \n", 2,
     told("operand 2: '2 KB/s  '", unit("/", "('i' or no character is expected)"), 5, RATE)),
    ("--suffix=/s --invalid=warn", b"1 x/s\r\n\xff/s\r\n", b"1 x/s\r\n\xff/s\r\n", 0,
     told("line 1: '1 x/s\\u{d}'", unit("x"), 3) + told("line 2: '\\xff/s\\x0d'", "not UTF-8")),
    ("--suffix=-x 1K-x", b"", b"1 KB-x\n"), ("--suffix -x 1K", b"", b"1 KB-x\n"), ("--suffix= 1K", b"", b"1 KB\n"),
    (["--suffix=\u00e9", "--padding=8", "1K\u00e9"], b"", b"  1 KB\xc3\xa9\n"),
    (["--suffix=" + "x" * 99, "1K"], b"", b"1 KB" + b"x" * 99 + b"\n"),
    ("-d, --field=2 --suffix=B --to=plain", b"1KB,1KB\n", b"1KB,1000B\n"),
    ("--no-unit --to=MiB -p2 --total 1536K 1MiB", b"", b"1.46\n1.00\n2.46\n"),
    ("--to=KiB --no-unit --suffix=x 1000", b"", b"0.9765625x\n"), ("--no-unit --to=plain 1K", b"", b"1000\n"),
    ("--no-unit --to=B -p3 --padding=6 1K", b"", b"  1000\n"), ("--bits --no-unit --to=K 1KB", b"", b"8\n"),
]

FIELDS = [
    (["-d", ",", "--field", "-2"], b"1000,1000,1000\n", b"1 KB,1 KB,1000\n"),
    (["-d", "", "--field=1"], b"1000\n", b"1 KB\n"), (["-d", "", "--field=2"], b"1K,2K\n", b"1K,2K\n"),
    (["--delimiter=", "--invalid=warn"], b"1K,2K\n", b"1K,2K\n", 0,
     told("line 1: '1K,2K'", unit(",", "('B' or 'b' or no character is expected)"), 3)),
    ("-d , --field=3", b"x,y\n1,2\n", b"x,y\n1,2\n"), ("-d , --field=18446744073709551615", b"x,y\n", b"x,y\n"),
    ("-d , --field=1-1", b"1024,1024\n", b"1 KiB,1024\n"), ("-d , --field=-", b"1024,1024\n", b"1 KiB,1 KiB\n"),
    ("-d , --field=3,1,1-2", b"1024,1024,1024,1024\n", b"1 KiB,1 KiB,1 KiB,1024\n"),
    ("-d , --field=1,2,3,4,5,6,7,8,9", b"1K," * 10 + b"1K\n", b"1 KB," * 9 + b"1K,1K\n"),
    ("-d , --field=-1,3-4,18446744073709551615-", b"1K,1K,1K,1K,1K\n", b"1 KB,1K,1 KB,1 KB,1K\n"),
    ("-d ,", b",1024\n", b"", 2, told("line 1: field 1: ''", BLANK, END)),
    ("-d , --field=2 --invalid=warn", b"1024,\n", b"1024,\n", 0, told("line 1: field 2: ''", BLANK, END)),
    (["-d", "\n"], b"1024\n", b"1 KiB\n"),
    (["-d", "\\t", "--field=2"], b"a\t1024\n", b"a\t1 KiB\n"),
    ("-d , --field=2", b"\xc3\xa9,1024,\xff\n", b"\xc3\xa9,1 KiB,\xff\n"),
]

QUOTED = [
    field(b"x\x1b[31m\x7f", "x\\u{1b}[31m\\u{7f}", digit("x"), 1),
    field("\u0080\u009f\ufeff'\\".encode(), "\\u{80}\\u{9f}\\u{feff}'\\", digit("\\u{80}"), 1),
    *(field(f"1{c}BK".encode(), f"1\\u{{{ord(c):x}}}BK", unit(f"\\u{{{ord(c):x}}}"), 2)
      for c in "\u00a0\u00ad\u061c\u1680\u200e\u2028\u202e\u2069\ufffb\U000110cd\U00013438\U0001bca3\U000e007f"),
    field("1\U000110be".encode(), "1\U000110be", unit("\U000110be"), 2),
    field("1\u0301".encode(), "1\u0301", unit("\\u{301}"), 2),
    field(b"1\t\x00", "1\\u{9}\\u{0}", unit("\\t"), 2),
    field("\u3000 1 Ké".encode(), "\\u{3000} 1 Ké", unit("é", "('B' or 'b' or no character is expected)"), 6),
    field(b" 1. ", " 1. ", digit("."), END), field(b"1 bi", "1 bi", unit("i", "(no character is expected)"), END),
    field("\u3000\u00a0".encode(), "\\u{3000}\\u{a0}", BLANK, END),
    *(field(text, text.decode(), "value number is too long", at)
      for text, at in ((b" 5192296858534827628530496329220096x", 35), (b"00" + b"1" * 40, 37), (b"1." + b"0" * 29, 31))),
    field(b"1.x", "1.x", digit("x"), 3), field(b"1 Kbitz", "1 Kbitz", unit("z", "('s' or no character is expected)"), 7),
    field(b"x\xff\x1b ~", "x\\xff\\x1b ~", "not UTF-8"),
    field(b"x" * 80, "x" * 80, digit("x"), 1),
    field(b"x" * 81, "x" * 80 + "..", digit("x"), 1),
    field("\u00e9".encode() * 38 + "x\U0001f600yyy".encode(), "\u00e9" * 38 + "x..", digit("\u00e9"), 1),
    *(field(("x" * at + c + "yyyy").encode(), "x" * at + c * (at + len(c.encode()) <= 80)
            + "y" * (80 - at - len(c.encode())) + "..", digit("x"), 1)
      for at in range(76, 81) for c in ("\u00e9", "\u20ac", "\U0001f600")),
    field(b"x" * 79 + b"\xc3\xa9\xff", "x" * 79 + "..", "not UTF-8"),
    field(b"x" * 78 + b"\xff\xff\xff", "x" * 78 + "\\xff\\xff..", "not UTF-8"),
    field(b"x" * 76 + b"\x80" * 9, "x" * 76 + "\\x80" * 4 + "..", "not UTF-8"),
    field(b"x" * 81 + b"\xff", "x" * 80 + "..", "not UTF-8"),
]

WRONG_VALUES = [
    *((["-d", ",", f"--field={text}"], told(f"--field: '{text}'", "not a list of fields"))
      for text in ("0", "3-2", "18446744073709551616", "1,,2", "", "+1", "1-+2", " 1", "1 ", "1--2", "--", "1,", ",1",
                   ",", "1-2-3", "x", "0-1", "0-", "-0")),
    *((["-d", text], told(f"--delimiter: '{text}'", "not one character of one byte"))
      for text in (",,", "\u00e9", "\u20ac", "ab", "\\n")),
    *(([f"--from={text}"], told(f"--from: '{text}'", "not auto, si, iec or iec-i")) for text in ("", "K", "IEC", "iec ")),
    *((words, told("--precision", "above 28 in the form exact")) for words in ("-p 29", "-p65535 --to=exact", "-H -p29 --to=exact")),
    *((words, told("--no-unit", "needs --to=plain or --to with a unit, such as --to=MiB"))
      for words in ("--no-unit", "--no-unit --to=exact", "--no-unit --to=si", "--no-unit -H", "--no-unit --to=iec -p1")),
    ("--field=2", told("--field: '2'", NEEDS)), ("--field=- 1K", told("--field: '-'", NEEDS)),
    *(([f"--padding={text}"], told(f"--padding: '{text}'", WIDTH))
      for text in ("0", "65536", "-65536", "-0", "-", "+6", "-+6", "--6", "6x", "")),
    ("--invalid=x", told("--invalid: 'x'", "not abort, fail, warn or ignore")),
    (["--invalid=\x1b"], told("--invalid: '\\u{1b}'", "not abort, fail, warn or ignore")),
    (["--invalid=\u202e"], told("--invalid: '\\u{202e}'", "not abort, fail, warn or ignore")),
    ("--to=", told("--to: ''", "not a form or a unit")),
    (["--to= "], told("--to: ' '", "not a form or a unit")),
    ("--to=GiBB", told("--to: 'GiBB'", "not a form or a unit: " + unit("B", "('i' or no character is expected)"))),
    ("--to=EXACT",
     told("--to: 'EXACT'", "not a form or a unit: " + unit("X", "('B' or 'b' or no character is expected)"))),
    ("--to=iec-i", told("--to: 'iec-i'", "not a form or a unit: " + unit("i"))),
    (["--to=\x1b[31mKB", "1"], told("--to: '\\u{1b}[31mKB'", "not a form or a unit: " + unit("\\u{1b}"))),
    (["--to=z q"],
     told("--to: 'z q'", "not a form or a unit: " + unit(" ", "('B' or 'b' or no character is expected)"))),
    ("--max=x", told("--max: 'x'", digit("x"), 1)),
    (["--max=5 bytes"], told("--max: '5 bytes'", unit("y", "('i' or no character is expected)"), 4)),
    ("--max=", told("--max: ''", BLANK, END)),
    ("--max=1.", told("--max: '1.'", digit("."), END)),
    (["--max=1,5 GB"], told("--max: '1,5 GB'", unit(","), 2)),
    (["--min=1\x9b"], told("--min: '1\\u{9b}'", unit("\\u{9b}"), 2)),
    (["--min=\u30001\u20ac "], told("--min: '\\u{3000}1\u20ac '", unit("\u20ac"), 3)),
    ("--bits --from=iec --min=1KiBx", told("--min: '1KiBx'", unit("x", "('i' or no character is expected)"), 5)),
    ("--max=1000000000000RB", told("--max: '1000000000000RB'", "the value 1000000000000 exceeds the valid range")),
]

# Two options that are wrong, the later one first: the earlier one is told, in the order of `options_of`.
TWO_WRONG = [
    ("--to=x --from=K", told("--from: 'K'", "not auto, si, iec or iec-i")),
    ("-p 29 --to=", told("--to: ''", "not a form or a unit")),
    ("--no-unit -p 29", told("--precision", "above 28 in the form exact")),
    ("-d ab --no-unit", told("--no-unit", "needs --to=plain or --to with a unit, such as --to=MiB")),
    ("--field=0 -d ab", told("--delimiter: 'ab'", "not one character of one byte")),
    ("--field=0", told("--field: '0'", NEEDS)),
    ("--padding=0 --field=2", told("--field: '2'", NEEDS)),
    ("--padding=0 -d , --field=0", told("--field: '0'", "not a list of fields")),
    ("--invalid=x --padding=0", told("--padding: '0'", WIDTH)),
    ("--max=x --invalid=y", told("--invalid: 'y'", "not abort, fail, warn or ignore")),
    ("--min=x --max=y", told("--max: 'y'", digit("y"), 1)),
]

WRONG_WORDS = [
    ("--blanks -d,", misused("the argument '--blanks' cannot be used with '--delimiter <C>'")),
    ("-p 65536", wrong("invalid value '65536' for '--precision <N>': 65536 is not in 0..=65535")),
    ("-p x", wrong("invalid value 'x' for '--precision <N>': invalid digit found in string")),
    (["-p", "\x1b"], wrong("invalid value '\\u{1b}' for '--precision <N>': invalid digit found in string")),
    ("-p -1", unknown("-1")),
    ("--bits -i", misused("the argument '--bits' cannot be used with '--ignore-case'")),
    ("--quux", unknown("--quux")),
    *((word, misused(f"unexpected argument '{word}' found", "  tip: a similar argument exists: '--no-hints'"))
      for word in ("--nothing", "--unit")),
    ("--he", misused("unexpected argument '--he' found", "  tip: a similar argument exists: '--help'")),
    (["--x\nbyte-unit: y"], unknown("--x\\u{a}byte-unit: y")),
    (["--x\u202e"], unknown("--x\\u{202e}")),
    ("--header=18446744073709551616",
     wrong("invalid value '18446744073709551616' for '--header[=<N>]': number too large to fit in target type")),
    ("--header=", wrong("invalid value '' for '--header[=<N>]': cannot parse integer from empty string")),
    ("--header=-1", wrong("invalid value '-1' for '--header[=<N>]': invalid digit found in string")),
    ("-d", wrong("a value is required for '--delimiter <C>' but none was supplied")),
    ("--total=1", misused("unexpected value '1' for '--total' found; no more were expected")),
]


def row(words, data=b"", written=b"", status=0, messages=""):
    """Returns a call and its result. Words that are one text are separated by spaces."""
    words = words.split() if isinstance(words, str) else words
    return Call(words, data), Result(written, messages.encode(), status)


# Each call with its result: those that the model has too, and the others.
MODELLED = [row(*each) for each in [
    *SIZES, *HEADERS_AND_TOTALS, *LIMITS, *FORMS, *PREFIXES, *WORDS, *REPEATED, *SUFFIXES, *FIELDS, *BETWEEN_BLANKS,
    *QUOTED]]
MODELLED += [row(words, b"", b"", 2, message) for words, message in WRONG_VALUES + TWO_WRONG]
OTHERS = [row(words, b"", b"", 2, message) for words, message in WRONG_WORDS]
LINES = b"1.5 KB\n" * 15_000
# More than 2^24 bytes: the wrong program "out of memory for 16 MB" of test_wrong.py fails for no fewer.
LONG = b"0" * 17_000_000


def many_reads():
    """Yields calls on records that the reads of 65,536 bytes cut, or that come in other pieces."""
    for cuts in None, *([at] for at in range(65_534, 65_541)):
        yield Call(["--total"], LINES, cuts)
    yield Call([], LINES, list(range(len(LINES))))
    characters = "x\u00e9\u20ac\U0001f600\x7f\n1 KB\u3000\n\ufeff".encode()
    yield Call(["--invalid=warn"], characters, list(range(len(characters))))
    yield Call(["-d,", "--field=-", "--invalid=fail"], b"1.5 KB," * 99_999 + b"x\n1 KB")


def many_records():
    """Yields calls with messages past record and field 65,536, on records that come in one or many reads."""
    lines = b"1\n" * 65_535 + b"x\n" * 3 + b"1 KB\n" * 4_464 + b"2 x"
    yield Call(["--invalid=warn", "--max=999", "--total"], lines)
    yield Call(["--header=65536"], lines)
    fields = b"1000," * 65_534 + b"x,y,z,1000" + b",w" * 5_000
    yield Call(["-d,", "--field=65535-65537,70000-", "--invalid=fail"], fields)
    yield Call(["--invalid=fail"], b"x\n" * 40_000)
    yield Call(["-d,", f"--field={','.join(map(str, range(2_000, 0, -2)))}"], b"1000," * 2_000 + b"1000")


def many_bytes():
    """Yields calls with lines of 17 MB, with texts of many MB for one read, and on many operands and long ones."""
    yield Call([], LONG + b"1.5 KB\n2 KB")
    yield Call(["-z", "--invalid=warn"], LONG + b"x\0" + b"2 KB")
    yield Call(["--header"], b"x" * 200_000 + b"\n" + b" " * 200_000 + b"1000\n")
    yield Call(["--padding=200"], b"1\n" * 32_768)
    yield Call(["--padding=-65535"], b"1 KB\n" * 500)
    yield Call(["-p65535", "--to=K", "--total"], b"1\n" * 100)
    yield Call(["--invalid=warn", *["1000"] * 5_000, "x", "1\n"], b"1 KB\n")
    yield Call(["--invalid=warn", "0" * 100_000 + "1.5 KB", "x" * 100_000, "\n" * 70_000], b"1 KB\n")


def characters():
    """Yields calls on a line for each character up to U+33FF, whose quoting no later version of Unicode changes."""
    known = [c for c in map(chr, range(1, 0x3400)) if c != "\n" and unicodedata.category(c) not in ("Cn", "Mc")]
    for number in "", "1", "1K", "1kb":
        yield Call(["--invalid=fail"], "".join(f"{number}{c}\n" for c in known).encode())


LARGE = [characters, many_reads, many_records, many_bytes]
