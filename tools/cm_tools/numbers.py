"""Every number that the program prints or its crates answer: its name, when it comes, and advice.

This is the one table of numbers; `explain` prints from it, and the reference is checked against it.
"""

from __future__ import annotations

from dataclasses import dataclass


@dataclass(frozen=True)
class Number:
    """A number with its name, where it is printed, when it comes and what to do about it.

    `printed` is `check` (behind `invalid`), `script` (behind `line L:`), `reply` (behind `refused`), `report`
    (behind `refused` in the report on storage) or `never` (it is answered by a crate and told by another
    number, or by none).
    """

    number: int
    name: str
    printed: str
    comes: str
    hint: str


def _table(*rows: Number) -> dict[int, Number]:
    return {row.number: row for row in rows}


NUMBERS: dict[int, Number] = _table(
    Number(
        1, "empty", "never",
        "a name, a path, a subdirectory or a list of rights words is empty",
        "Write at least one character. In a manifest this is told as 36, 37 or 38 of the field.",
    ),
    Number(
        2, "too-long", "never",
        "a name has more than 255 bytes, or a path, a subdirectory, a URL or a moniker more than "
        "4,096",
        "Shorten the text. In a manifest this is told as 36 or 37 of the field.",
    ),
    Number(
        3, "bad-byte", "never",
        "a name or a path has a byte that may not stand there",
        "Names have ASCII letters, digits, `_`, `-` and `.`, and begin with a letter, a digit or "
        "`_`. Paths have no spaces and nothing outside ASCII.",
    ),
    Number(
        4, "not-absolute", "never",
        "a path doesn't begin with a slash, or a subdirectory does",
        "Begin a path with `/`, and a subdirectory without it.",
    ),
    Number(
        5, "empty-part", "never",
        "a path or a subdirectory has two slashes in a row or one at its end",
        "Take out the slash that stands too much.",
    ),
    Number(
        6, "dot-part", "never",
        "a part of a path or a subdirectory is `.` or `..`",
        "Write the path that is meant, without `.` and `..`.",
    ),
    Number(
        7, "unknown-right", "never",
        "a word names no rights",
        "Use `r*`, `w*`, `x*`, `rw*`, `rx*` or the names of single rights as `read_bytes`.",
    ),
    Number(
        8, "repeated-right", "never",
        "a rights word stands twice",
        "Write each rights word once.",
    ),
    Number(
        9, "bad-moniker", "never",
        "a text is no moniker",
        "A moniker is `.` for the root, or names joined by slashes, `collection:name` for a child"
        " in a collection.",
    ),
    Number(
        10, "bad-token", "never",
        "a character between the tokens of a manifest is none of its language",
        "Take the character out, or put the text in quotes. In a manifest this is told as 31.",
    ),
    Number(
        11, "unclosed", "never",
        "a string or a comment isn't closed",
        "Close the string by the quote that it begins with, or the comment by `*/`. In a manifest"
        " this is told as 31.",
    ),
    Number(
        20, "bad-url", "never",
        "a URL can't be parsed, is a fragment without a base, or grows longer than 4,096 bytes",
        "Write a whole URL as `fuchsia-pkg://host/package#meta/name.cm`, or `#meta/name.cm` for "
        "one in the parent's package. It is printed as 77 for a block, and as the outcome `bad-"
        "url` of a resolve.",
    ),
    Number(
        21, "repeated", "never",
        "a block of that URL is there already",
        "Give each manifest one block. It is printed as 78.",
    ),
    Number(
        22, "no-fragment", "never",
        "a URL has no fragment, so it names no manifest",
        "Put `#meta/name.cm` behind the package. It is printed as 77 for a block, and as the "
        "outcome `bad-url` of a resolve.",
    ),
    Number(
        30, "not-utf8", "check",
        "the manifest's bytes are no UTF-8",
        "Save the file as UTF-8.",
    ),
    Number(
        31, "not-json", "check",
        "the manifest isn't JSON, in the spelling that allows comments, keys without quotes, single"
        " quotes and a comma behind the last item, or nests deeper than 127",
        "Mend the spelling at the place that is shown.",
    ),
    Number(
        32, "not-object", "check",
        "the manifest is JSON, but no object",
        "Put the sections in one pair of braces `{ }`.",
    ),
    Number(
        33, "unknown-field", "check",
        "a section or a field isn't in the table of those that are read, or doesn't belong to the"
        " item's kind",
        "Look for a misspelt word. `rights` and `subdir` are for directories alone, and "
        "`include`, `config`, services, dictionaries and the like aren't read here.",
    ),
    Number(
        34, "missing", "check",
        "a field that has no default isn't there",
        "Add the field to the item.",
    ),
    Number(
        35, "wrong-type", "check",
        "a value has another type than its field, or a list of names or references is empty",
        "Sections are lists of objects (`program` is one object), names and paths are texts, "
        "`rights` is a list of texts, `runners` and `debug` of an environment are lists of objects.",
    ),
    Number(
        36, "bad-name", "check",
        "a name, the name of a reference, or a URL text can't be one",
        "Names have 1 to 255 ASCII letters, digits, `_`, `-` and `.`, and begin with a letter, a "
        "digit or `_`. A URL has 1 to 4,096 bytes without spaces.",
    ),
    Number(
        37, "bad-path", "check",
        "a path or a subdirectory can't be one",
        "A path begins with `/`, a subdirectory doesn't; neither has an empty part, `.`, `..`, "
        "spaces or a slash at its end.",
    ),
    Number(
        38, "bad-rights", "check",
        "the rights words are none, repeated or unknown",
        "Use `r*`, `w*`, `x*`, `rw*`, `rx*` or the names of single rights, each once, and at "
        "least one.",
    ),
    Number(
        39, "unknown-word", "check",
        "a field with listed words has another word, or `from` or `to` is neither one of its "
        "words nor a reference that begins with `#`",
        "A child or collection is written with `#` in front, as `#logger`. Otherwise use one of "
        "the field's own words.",
    ),
    Number(
        40, "kind-count", "check",
        "an item of `capabilities`, `use`, `offer` or `expose` has no kind, or two",
        "Give each item exactly one of `protocol`, `directory` and `storage`, in `expose` of the first "
        "two; services, runners, resolvers and the like aren't read here.",
    ),
    Number(
        41, "too-large", "check",
        "the manifest has more than 1,048,576 bytes",
        "Split the component, or take out what isn't needed.",
    ),
    Number(
        42, "not-with-many", "check",
        "`path` or `as` stands beside a list of several names",
        "Write one item for each name that needs a path or a new name.",
    ),
    Number(
        43, "too-many-rows", "check",
        "a section gives more than 16,384 rows",
        "An item gives a row for each name, and in `offer` for each name and target. Split the "
        "component or offer less.",
    ),
    Number(
        50, "repeated-name", "check",
        "the name of a child or a collection is that of an earlier one of either, or a capability has "
        "the name of an earlier capability",
        "Rename one of the two. Children and collections share their names, and so do protocols "
        "and directories.",
    ),
    Number(
        51, "unknown-ref", "check",
        "`from` names a child that isn't declared, or `to` names neither a child nor a collection",
        "Declare it in `children` or `collections`, or mend the name behind `#`. A source that needn't be "
        'there has `source_availability: "unknown"`.',
    ),
    Number(
        52, "not-declared", "check",
        "something comes from `self` and isn't among the capabilities, by kind and name, or a directory "
        "is from `framework`",
        "Declare it in `capabilities`, with the same kind and name, or take it from elsewhere.",
    ),
    Number(
        53, "target-is-source", "check",
        "an offer goes to the child that it comes from",
        "A child needs no offer of its own capability; offer it to another child, or take that "
        "target out.",
    ),
    Number(
        54, "repeated-target", "check",
        "an earlier offer gives the same target the same name, or an earlier expose has the same "
        "name",
        "Take one of the two out, or give one another name with `as`.",
    ),
    Number(
        55, "repeated-path", "check",
        "an earlier use has this path",
        "Give one of the two uses another `path`.",
    ),
    Number(
        56, "path-inside", "check",
        "an earlier use's path lies inside this path, or the other way round",
        "Choose paths of which none lies below another.",
    ),
    Number(
        57, "required-void", "check",
        "an offer or an expose from `void` is `required` or `same_as_target`, also where its "
        "`source_availability` is `unknown` and its source isn't declared",
        "What comes from `void` is absent, so its `availability` has to be `optional` or `transitional`.",
    ),
    Number(
        58, "strong-cycle", "check",
        "strong dependencies go in a circle",
        'Mark one of the offers or uses in the circle with `dependency: "weak"`, or take it out.',
    ),
    Number(
        60, "collection-not-found", "reply",
        "the parent has no collection of that name",
        "Declare the collection in the parent's manifest, or mend its name.",
    ),
    Number(
        61, "already-exists", "reply",
        "the collection has a child of that name",
        "Choose another name, or destroy the child first; one that was shut down keeps its name.",
    ),
    Number(
        62, "dynamic-offers-refused", "reply",
        "something is offered to a child in a collection that allows static offers alone",
        'Give the collection `allowed_offers: "static_and_dynamic"`, or create the child without '
        "offers.",
    ),
    Number(
        63, "bad-offer", "reply",
        "one of the offers to the new child isn't valid; its index is followed by the number 51, "
        "52, 54 or 57",
        "Read the second number as in a manifest, and mend the group with that index, counted "
        "from 0.",
    ),
    Number(
        64, "offer-cycle", "reply",
        "with the new child strong dependencies would go in a circle",
        "Mark one of its offers `weak`, or don't offer what depends on it.",
    ),
    Number(
        65, "parent-closing", "reply",
        "the parent is being shut down or is shut",
        "Nothing is created below what was shut down; create the child elsewhere or earlier.",
    ),
    Number(
        67, "full", "reply",
        "65,536 instances are there",
        "Destroy children in collections that aren't needed.",
    ),
    Number(
        68, "not-dynamic", "reply",
        "what is to be destroyed is the root or a child that the manifest declares",
        "Only what `create` made can be destroyed; use `shutdown` for others.",
    ),
    Number(
        69, "history-full", "reply",
        "the history has no room for another entry",
        "A history ends at 4,194,304 entries; begin a new run.",
    ),
    Number(
        70, "bad-command", "script",
        "a header line or a command isn't in the grammar, or a header line may not stand there",
        "The caret stands behind the longest front that could go on. At 0 the whole line may not "
        "stand there: header lines come before the first command, and `root` once.",
    ),
    Number(
        71, "bad-lane", "script",
        "a line doesn't begin with a lane's number and a space",
        "Begin the command with a lane from 0 to 15, as `0 start .`.",
    ),
    Number(
        72, "no-root", "script",
        "a command or `sync` comes before the root line, or there is no root line",
        "Put `root URL` behind the manifests and before the first command.",
    ),
    Number(
        73, "unclosed-manifest", "script",
        "no line `%%` closes a manifest",
        "Put a line that is `%%` alone behind the manifest.",
    ),
    Number(
        74, "too-many-lanes", "script",
        "a lane is above 15",
        "Use the lanes 0 to 15.",
    ),
    Number(
        75, "line-too-long", "script",
        "a line has more than 65,536 bytes",
        "Break the line; in a manifest a line may end between any two tokens.",
    ),
    Number(
        76, "too-large", "script",
        "the script has more than 67,108,864 bytes",
        "Put the manifests into a folder and name it with `--repo`.",
    ),
    Number(
        77, "bad-manifest-url", "script",
        "a manifest's URL can't be parsed or has no fragment",
        "Write a whole URL with a fragment, as `fuchsia-pkg://host/package#meta/name.cm`.",
    ),
    Number(
        78, "repeated-manifest", "script",
        "an earlier manifest has the URL",
        "Take one of the two out, or give one another URL.",
    ),
    Number(
        80, "not-found", "reply",
        "no instance has that moniker; what is printed is how far the way to it goes",
        "Look with `survey` which children the instance that is printed has, and whether the "
        "wanted one was destroyed.",
    ),
    Number(
        81, "gone", "reply",
        "the instance is destroyed, or is being destroyed: by a command, or since it went with an instance "
        "that stopped",
        "A child that is created anew has another incarnation; ask for it by its moniker. A child in a "
        "collection goes when its parent stops, and one that runs once when it ends itself.",
    ),
    Number(
        82, "shut", "reply",
        "the instance is shut down, or below one that is",
        "A shutdown is for good: nothing below it is resolved or started again.",
    ),
    Number(
        83, "cannot-resolve", "reply",
        "an instance that is needed could not be resolved, for the reason that is printed",
        "`absent`: no manifest has its URL, in the script or below `--repo` (a folder that isn't "
        "there looks the same). `invalid`: its manifest has that fault. `bad-url`: its URL can't "
        "be parsed. `gate-failed`: it couldn't be read.",
    ),
    Number(
        84, "cannot-start", "reply",
        "an instance that is needed could not be started, for the reason that is printed",
        "`declined`: its runner refused it. `gate-failed`: the runner itself failed.",
    ),
    Number(
        85, "client-off", "reply",
        "the instance that would open something doesn't run",
        "Start the instance first.",
    ),
    Number(
        86, "no-such-use", "reply",
        "the instance uses nothing at that path",
        "The path is the one of the instance's `use`; a protocol's default is `/svc/` and its "
        "name.",
    ),
    Number(
        87, "no-route", "reply",
        "the route fails at the hop that is printed, for the reason that is printed",
        "Look at the offer or expose of that instance; it is missing, or states less than the "
        "route asks.",
    ),
    Number(
        88, "void", "reply",
        "the route ends in a source that is left void on purpose",
        "Nothing is there to open; the client has to do without it.",
    ),
    Number(
        89, "source-shut", "reply",
        "the instance that provides it is shut down",
        "Open it before the shutdown, or take it from an instance that is left.",
    ),
    Number(
        90, "repeated-environment", "check",
        "an earlier environment has the name",
        "Rename one of the two.",
    ),
    Number(
        91, "unknown-environment", "check",
        "a child's or a collection's environment isn't declared",
        "Declare it in `environments`, or mend the name behind `#`.",
    ),
    Number(
        92, "repeated-registration", "check",
        "one environment registers two runners, or two debug protocols, by one name",
        "Take one of the two out, or give one another name with `as`.",
    ),
    Number(
        93, "unknown-source", "check",
        "a registration comes from a child that isn't declared, or a debug protocol from `self` "
        "that isn't a capability",
        "Declare the child or the capability, or mend the name.",
    ),
    Number(
        94, "repeated-debug-path", "check",
        "another use has the path of a use from `debug`",
        "Give one of the two uses another `path`. The index counts the uses from `debug` alone.",
    ),
    Number(
        95, "repeated-storage", "check",
        "an earlier storage capability has the name",
        "Rename one of the two. The index counts the storage capabilities alone.",
    ),
    Number(
        96, "unknown-storage-ref", "check",
        "the child that backs a storage, or the target of a storage offer, isn't declared",
        "Declare it, or mend the name behind `#`. The index counts the storage rows alone.",
    ),
    Number(
        97, "storage-not-declared", "check",
        "a storage is offered from `self` and isn't declared",
        "Declare the storage in `capabilities`, or offer it from `parent`. The index counts the "
        "storage rows alone.",
    ),
    Number(
        100, "no-storage-use", "never",
        "the instance uses no storage at the path",
        "Ask for the path of one of its storage uses.",
    ),
    Number(
        101, "no-storage-offer", "report",
        "the instance that is printed doesn't offer the storage on",
        "Add the offer of the storage there.",
    ),
    Number(
        102, "no-storage", "report",
        "the instance that is printed offers a storage from `self` that it doesn't declare",
        "Declare the storage in its `capabilities`.",
    ),
    Number(
        103, "void-storage", "report",
        "the instance that is printed offers the storage from `void`",
        "There is no place to store; the client has to do without it.",
    ),
    Number(
        104, "no-instance-id", "report",
        "the storage is only for instances with an identifier of their own, which this program "
        "doesn't keep",
        'Declare the storage with `storage_id: "static_instance_id_or_moniker"`.',
    ),
    Number(
        105, "no-backing", "report",
        "the directory that backs the storage isn't there",
        "Look at `backing_dir` and `from` of the storage of the instance that is printed.",
    ),
    Number(
        106, "backing-unresolved", "report",
        "the instance that backs the storage isn't resolved",
        "Resolve it first.",
    ),
    Number(
        107, "backing-route", "report",
        "the route to the directory that backs the storage fails at the hop that is printed",
        "Look at the offer or expose of that instance.",
    ),
    Number(
        108, "backing-void", "report",
        "the route to the directory that backs the storage ends in `void`",
        "There is no place to store; back the storage by another directory.",
    ),
    Number(
        109, "backing-rights-too-weak", "report",
        "the directory that backs the storage isn't given with the rights `rw*`",
        "Give the directory `rw*` at its capability and at each expose and offer that states "
        "rights.",
    ),
)

# Why a route fails, as 87 tells it, with advice.
REASONS: dict[str, str] = {
    "no-offer": "The instance that is printed doesn't offer it on: add an `offer` to its child, with the"
    " kind and the name that the child asks for (`as` renames).",
    "no-expose": "The instance that is printed doesn't expose it: add an `expose`, with the kind and the"
    " name that its parent asks for (`as` renames).",
    "no-instance": "The offer that is printed comes from a child that isn't there: declare it, or create"
    " it before the route is asked for.",
    "no-builtin": "The root asks its parent for something that nothing provides: add a `builtin` line to"
    " the script, with the same kind and name.",
    "availability-too-weak": "The item states a weaker availability than the hop before it asks: make it"
    " `required`, or the use and what stands between them `optional` or `transitional`.",
    "rights-too-weak": "The route asks for more rights than the item states: ask for fewer in the use, or"
    " state more in the item.",
}

# What became of an action that failed, as 83 and 84 tell it, with advice.
OUTCOMES: dict[str, str] = {
    "absent": "No manifest has its URL, in the script or below the folder of `--repo`. A folder that isn't"
    " there looks the same.",
    "bad-url": "Its URL, on that of its parent, can't be parsed or has no fragment.",
    "invalid": "Its manifest has the fault that is printed behind it.",
    "declined": "Its runner refused to start it.",
    "gate-failed": "What should fetch or run it failed itself: a file that can't be read, or a runner that"
    " broke.",
    "full": "Its children would be more instances than the 65,536 that may be there.",
    "no-memory": "Memory ran out in between.",
}


def advice_words(number: int, words: str) -> str:
    """The advice for a refusal: that of its reason or its outcome, where it tells one."""
    first = words.split(" ")[0]
    if number == 107:
        return advice_words(87, words.removeprefix("backing "))
    if number == 87 and first in REASONS:
        return REASONS[first]
    if number in (83, 84):
        told = next((OUTCOMES[word] for word in words.split(" ")[3:4] if word in OUTCOMES), "")
        if told:
            return told
    return NUMBERS[number].hint if number in NUMBERS else ""
