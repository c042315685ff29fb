"""A dissector for Wireshark and tshark, in Lua, that is made from the table of the grammar."""
import re
from collections.abc import Iterable, Iterator

from gossip.formats.files import MAGIC, UPDATES, Session
from gossip.formats.grammar import EXCHANGE_KINDS, FIELDS, GRAMMAR, HEAD, NUMBER, ROLES, WORD_SIZE, Field, window_words

# the first line of a dissector
FRONT = "-- Dissects the datagrams of bar. It is made from the table of the grammar by tools/export-pcap."

# the Lua that walks over a datagram by the tables before it
WALK = """
local function is_one(buffer)
  return buffer:len() >= 16 and buffer(0, 2):uint() == magic and words[buffer(2, 1):uint()] ~= nil and kinds[buffer(3, 1):uint()] ~= nil
end

local function size_of(field, version)
  return field.form == "window" and word_size * words[version] * bar.prefs.life or field.size
end

-- adds a field, and says where the next one stands; nothing where the datagram is cut
local function add(field, buffer, at, version, tree, pinfo, counts)
  local size = size_of(field, version)
  if field.form == "datagram" then
    if at + 2 > buffer:len() then return nil end
    size = buffer(at, 2):uint()
    at = at + 2
  end
  if size == 0 or at + size > buffer:len() then return nil end
  local item = tree:add(fields[field.name], buffer(at, size))
  if field.form == "number" then
    counts[field.name] = buffer(at, size):uint()
  elseif field.form == "window" then
    local count, bits = 0, buffer(at, size):bytes()
    for place = 0, size - 1 do
      local byte = bits:get_index(place)
      while byte > 0 do
        count = count + byte % 2
        byte = math.floor(byte / 2)
      end
    end
    item:append_text(" (" .. count .. " updates)")
  elseif field.form == "datagram" then
    local inner = buffer(at, size):tvb()
    if is_one(inner) then dissect(inner, pinfo, tree, true) end
  end
  return at + size
end

local function told(kind, counts)
  local parts = {kind.name, tostring(counts["from"]), "to", counts["to"] == 65535 and "all" or tostring(counts["to"])}
  if counts["round"] then table.insert(parts, "round " .. counts["round"]) end
  if counts["exchange kind"] then table.insert(parts, exchange_kinds[counts["exchange kind"]] or "?") end
  for _, name in ipairs {"index", "count", "updates", "junk"} do
    if counts[name] then table.insert(parts, name .. " " .. counts[name]) end
  end
  return table.concat(parts, " ")
end

function dissect(buffer, pinfo, tree, is_inner)
  local counts, at, version, kind = {}, 0, buffer(2, 1):uint(), kinds[buffer(3, 1):uint()]
  local part = tree:add(bar, buffer())
  for _, field in ipairs(head) do
    at = add(field, buffer, at, version, part, pinfo, counts)
  end
  for _, field in ipairs(kind.fields) do
    local push = (counts["exchange kind"] or 0) > 0 and 1 or 0
    if field.only == nil or field.only == push then
      for _ = 1, field.times and counts[field.times] or 1 do
        at = at and add(field, buffer, at, version, part, pinfo, counts)
      end
    end
  end
  if at and kind.signed and at < buffer:len() then
    part:add(fields["signature"], buffer(at))
    at = buffer:len()
  end
  if at ~= buffer:len() then
    part:add_proto_expert_info(cut)
  end
  local line = told(kind, counts)
  part:append_text(", " .. line)
  if not is_inner then
    pinfo.cols.protocol = "bar"
    pinfo.cols.info = line
  end
end

function bar.dissector(buffer, pinfo, tree)
  if not is_one(buffer) then return 0 end
  dissect(buffer, pinfo, tree, false)
  return buffer:len()
end

bar:register_heuristic("udp", function(buffer, pinfo, tree)
  return is_one(buffer) and bar.dissector(buffer, pinfo, tree) > 0
end)
"""

TYPES = {1: "uint8", 2: "uint16", 4: "uint32"}


def abbreviation(name: str) -> str:
    """Returns the name of a field in a display filter."""
    return f"bar.{re.sub('[^a-z0-9]+', '_', name.replace(chr(39), ''))}"


def text_of(value: int | str) -> str:
    """Returns a value in Lua."""
    if isinstance(value, bool):
        return str(value).lower()
    return str(value) if isinstance(value, int) else f'"{value}"'


def table_of(values: Iterable[tuple[int | str | None, str]], keys: bool = True) -> str:
    """Returns a table in Lua, by keys or in order."""
    return "{" + ", ".join(f"[{text_of(key)}] = {it}" if keys else it for key, it in values) + "}"


def field_of(field: Field) -> str:
    """Returns a field in Lua."""
    parts = {"name": field.name, "form": field.form, "size": field.size, "times": field.times, "only": field.only}
    return table_of((name, text_of(value)) for name, value in parts.items() if value is not None)


def fields_of(fields: Iterable[Field]) -> str:
    return table_of(((None, field_of(field)) for field in fields), keys=False)


def declared(fields: Iterable[Field]) -> Iterator[tuple[str, str]]:
    """Yields the name and the declaration of each field, each name once."""
    values = {"kind": "kind_names", "exchange kind": "exchange_kinds", "role": "roles"}
    for name, field in {field.name: field for field in fields}.items():
        type_ = TYPES[field.size] if field.form == NUMBER else "bytes"
        more = f", base.DEC, {values[name]}" if name in values else ""
        yield name, f'ProtoField.{type_}("{abbreviation(name)}", "{name}"{more})'


def numbered(names: Iterable[str]) -> str:
    return table_of((number, text_of(name)) for number, name in enumerate(names))


def dissector_of(session: Session) -> str:
    """Returns the dissector, with the numbers of a session as its defaults."""
    kinds = {
        kind: table_of([("name", text_of(it.name)), ("signed", text_of(it.is_signed)), ("fields", fields_of(it.fields))])
        for kind, it in GRAMMAR.items()
    }
    every = [*HEAD, *(field for fields in FIELDS.values() for field in fields)]
    names = [*declared(every), ("signature", f'ProtoField.bytes("{abbreviation("signature")}", "signature")')]
    lines = [
        FRONT,
        'local bar = Proto("bar", "bar gossip")',
        f'bar.prefs.life = Pref.uint("Life", {session.life}, "how many rounds an update lives in the session")',
        f"local magic, word_size = 0x{MAGIC[:2].hex()}, {WORD_SIZE}",
        f"local words = {table_of((version, str(window_words(version))) for version in UPDATES)}",
        f"local exchange_kinds, roles = {numbered(EXCHANGE_KINDS)}, {numbered(ROLES)}",
        f"local kind_names = {table_of((kind, text_of(it.name)) for kind, it in GRAMMAR.items())}",
        f"local fields = {table_of(names)}",
        "bar.fields = fields",
        'local cut = ProtoExpert.new("bar.cut", "another length than its counts give", expert.group.MALFORMED, expert.severity.ERROR)',
        "bar.experts = {cut}",
        f"local head = {fields_of(HEAD)}",
        f"local kinds = {table_of(kinds.items())}",
        "local dissect",
    ]
    return "\n".join(lines) + "\n" + WALK.replace("function dissect(", "dissect = function(", 1)
