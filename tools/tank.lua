-- A Wireshark dissector of the frames that nodes exchange: the chapter "Wire" of docs/PROTOCOL.md.
--
--     wireshark -X lua_script:tools/tank.lua x.pcap
--     tshark -X lua_script:tools/tank.lua -r x.pcap -V
--
-- `tools/tank_pcap` makes a capture of frames on Unix sockets. Frames are looked for in TCP streams
-- of the port in the preference `tank.port`; "Decode As" works for other ports. A frame may lie in
-- any pieces over the packets.
--
-- Fields have the names of the chapter. `tank.offset` is the place of a frame in its stream,
-- counted from the first frame of the capture; it is the OFFSET of a node's text
-- `tank: frame at OFFSET ..`. `tank.refusal` is what that text says of the frame. A node reads
-- nothing after a refused frame. The dissector goes on with the next one, unless the length itself
-- was refused.

local MAX_MESSAGE = 65536
local PAGE_BYTES = 4096
local LAST_PAGE = 1048575
local U16 = 65535
local U32 = 4294967295

local tank = Proto("tank", "Tavsligg node protocol")
tank.prefs.port = Pref.uint("TCP port", 50038, "The port of the streams that hold frames")

-- Words for values.

local KINDS = {
  [1] = "hello", [2] = "keepalive", [3] = "acquire", [4] = "released", [5] = "map", [6] = "allocate", [7] = "cut",
  [8] = "name", [9] = "reassert", [10] = "demandseen",
  [32] = "welcome", [33] = "ack", [34] = "nack", [35] = "granted", [36] = "queued", [37] = "demand", [38] = "extents",
  [39] = "named", [40] = "reasserted",
  [64] = "tick", [65] = "app", [66] = "appdone", [67] = "submit", [68] = "done",
}
local NODES = { [0] = "surroundings" }
for client = 1, 16 do NODES[client] = "c" .. client end
for server = 1, 4 do NODES[32768 + server] = "s" .. server end
local MODES = { [1] = "shared", [2] = "exclusive" }
local LOWERED = { [0] = "none", [1] = "shared" }
local CAUSES = {
  "suspect", "no session", "other epoch", "grace", "grace over", "conflict", "not holder", "no file", "no space",
  "too many locks",
}
local CODES = {
  "no such entry", "the entry exists", "not a directory", "a directory", "the directory has entries",
  "a directory would end up below itself", "not a name", "too many inodes",
}
local NAME_OPS = { "lookup", "create", "mkdir", "remove", "rename", "list" }
local ENTRY_KINDS = { "file", "directory" }
local REPLIES = { [0] = "an inode", [1] = "entries", [2] = "refused" }
local ASKS = { "write", "read", "sync", "cut", "name", "patch" }
local ANSWERS = {
  [0] = "written", [1] = "read", [2] = "hard", [3] = "cut", [4] = "named", [5] = "listed", [6] = "refused",
  [17] = "quiesced", [18] = "nofile", [19] = "nospace", [20] = "diskfault", [21] = "opsfull", [22] = "uncertain",
  [23] = "lost", [24] = "dirtyfull", [25] = "notholder", [26] = "toomanylocks",
}
local COMMANDS = { [0] = "read", [1] = "write" }
local ENDINGS = { [0] = "failed", [1] = "write done", [2] = "read done" }

-- Fields. The first word of a constructor is the filter's name after `tank.`, the second the label.

local f = {}
local labels = {}

local function add_number(make, name, label, words)
  f[name] = make("tank." .. name, label, base.DEC, words)
  labels[name] = label
end

local function uint8(name, label, words) add_number(ProtoField.uint8, name, label, words) end
local function uint16(name, label, words) add_number(ProtoField.uint16, name, label, words) end
local function uint32(name, label) add_number(ProtoField.uint32, name, label) end
local function uint64(name, label) add_number(ProtoField.uint64, name, label) end

uint64("offset", "offset in the stream")
uint32("length", "length")
f.refusal = ProtoField.string("tank.refusal", "refusal")
uint32("refusal_offset", "refused at this byte of the message")
f.unread = ProtoField.bytes("tank.unread", "not read")
f.row = ProtoField.none("tank.row", "row")
f.piece = ProtoField.none("tank.piece", "start of a frame")

uint8("version", "version")
uint8("kind", "kind", KINDS)
uint16("from", "from", NODES)
uint16("to", "to", NODES)
uint64("life", "life")
uint64("epoch", "epoch")
uint64("number", "number")
uint64("stamp", "stamp")

uint32("ino", "ino")
uint64("grant", "grant")
uint8("mode", "mode", MODES)
uint8("lowered_to", "to", LOWERED)
uint32("page", "page")
uint16("count", "count")
uint8("name_op", "op", NAME_OPS)
uint32("dir", "dir")
uint32("dir2", "dir2")
uint8("name_length", "length of the name")
f.name = ProtoField.string("tank.name", "name")
f.name2 = ProtoField.string("tank.name2", "name2")
f.after = ProtoField.string("tank.after", "after")
uint8("why", "why", CAUSES)
uint64("a", "a")
uint64("b", "b")
uint16("disk", "disk")
uint32("block", "block")
uint64("birth", "birth")
uint8("reply", "reply", REPLIES)
uint8("code", "code", CODES)
uint8("entry_kind", "entry", ENTRY_KINDS)
uint32("op", "op")
uint8("ask", "ask", ASKS)
uint8("answer", "answer", ANSWERS)
uint16("server", "server")
uint16("at", "at")
uint16("patch_length", "length")
f.patch = ProtoField.bytes("tank.patch", "bytes")
f.whole_page = ProtoField.bytes("tank.whole_page", "whole page")
uint64("free", "free")
uint64("asked", "asked")
uint64("command", "command")
uint64("old", "old")
uint64("new", "new")
uint8("command_kind", "command is a", COMMANDS)
uint8("ending", "ending", ENDINGS)

tank.fields = f

-- Refusals, each with its filter's name and what it says.

local REFUSALS = {}
local REASONS = {
  Short = { "short", "the bytes end inside a field" },
  Long = { "long", "bytes follow the body" },
  Version = { "bad_version", "the version is neither 1 nor 2" },
  Kind = { "bad_kind", "no message of this version has this kind" },
  Value = { "bad_value", "the field at this byte is out of its range" },
  FrameTooLong = { "frame_too_long", "a length above 65,536" },
}
for name, reason in pairs(REASONS) do
  REFUSALS[name] = ProtoExpert.new("tank." .. reason[1], name, expert.group.MALFORMED, expert.severity.ERROR)
end
tank.experts = REFUSALS

-- A reader of one message: it shows each field that it reads and stops at the first fault.
--
-- `bytes` is the packet's buffer, `begin` the message's place in it, `size` the message's length,
-- `at` the next byte of the message, `tree` where fields are shown, `words` what the packet list
-- says of the message.

local Reader = {}
Reader.__index = Reader

local function new_reader(bytes, begin, size, tree)
  return setmetatable({ bytes = bytes, begin = begin, size = size, at = 0, tree = tree, words = {}, depth = 0 }, Reader)
end

-- Stops the reading. A fault has the item to mark, if a field was shown, and the offset, if
-- it is `Value`.
local function refuse(name, item, offset)
  error({ refusal = name, item = item, offset = offset }, 0)
end

-- The next `size` bytes, which are then read.
function Reader:take(size)
  if self.at + size > self.size then refuse("Short") end
  local range = self.bytes(self.begin + self.at, size)
  self.at = self.at + size
  return range
end

function Reader:say(name, text)
  if self.depth == 0 then table.insert(self.words, name .. " " .. text) end
end

-- A number of 1, 2 or 4 bytes from `low` to `high`. `is_good`, if it is given, says more of
-- which values are in range.
function Reader:number(name, size, low, high, is_good)
  local offset = self.at
  local range = self:take(size)
  local value = range:uint()
  local item = self.tree:add(f[name], range)
  if value < low or value > high or (is_good and not is_good(value)) then refuse("Value", item, offset) end
  return value, item
end

-- A number of 8 bytes: `which` is "any", "zero" or "positive".
function Reader:long(name, which)
  local offset = self.at
  local range = self:take(8)
  local item = self.tree:add(f[name], range)
  local is_zero = range(0, 4):uint() == 0 and range(4, 4):uint() == 0
  if (which == "zero" and not is_zero) or (which == "positive" and is_zero) then refuse("Value", item, offset) end
  return range, item
end

-- A number that the packet list shows, with its word if it has one.
function Reader:told(name, size, low, high, words)
  local value = self:number(name, size, low, high, words and function(v) return words[v] ~= nil end)
  self:say(labels[name], words and words[value] or tostring(value))
  return value
end

-- Shows what `read` reads in a subtree, for a row of a list. Its length is known when it was read.
function Reader:row(number, read)
  local tree, begin = self.tree, self.at
  local item = tree:add(f.row, self.bytes(self.begin + begin, 0)):set_text("row " .. number)
  self.tree, self.depth = item, self.depth + 1
  local went, fault = pcall(read, self)
  item:set_len(self.at - begin)
  self.tree, self.depth = tree, self.depth - 1
  if not went then error(fault, 0) end
end

function Reader:ino(low) return self:told("ino", 4, low or 1, U32) end

function Reader:page(low) return self:told("page", 4, low or 0, LAST_PAGE) end

function Reader:mode() return self:told("mode", 1, 1, 2, MODES) end

function Reader:grant()
  local range, item = self:long("grant", "any")
  item:append_text(string.format(" (epoch %d, %d)", range(0, 4):uint(), range(4, 4):uint()))
end

function Reader:file(low)
  self:told("server", 2, low or 1, U16)
  self:ino(low)
end

-- A name of `low` to `high` bytes, after its length.
function Reader:name(field, low, high)
  local length = self:number("name_length", 1, low or 1, high or 255)
  local range = self:take(length)
  self.tree:add_packet_field(f[field], range, ENC_UTF_8)
  self:say(field, length > 0 and range:string(ENC_UTF_8) or "-")
end

function Reader:whole_page() self.tree:add(f.whole_page, self:take(PAGE_BYTES)) end

-- A count of at most `high` rows, and the rows, each read by `read`.
function Reader:rows(low, high, read)
  local count = self:told("count", 2, low, high)
  for number = 1, count do self:row(number, read) end
end

function Reader:entries()
  self:rows(0, 256, function(r)
    r:ino()
    r:number("entry_kind", 1, 1, 2)
    r:name("name", 1, 64)
  end)
end

-- Op and fields of a request on names. An application names the inode that it removes, and a client
-- the grant of its lock.
function Reader:name_op(is_ask)
  local op = self:told("name_op", 1, 1, 6, NAME_OPS)
  self:told("dir", 4, 1, U32)
  if op == 6 then
    self:name("after", 0)
    return
  end
  self:name("name")
  if op == 4 and is_ask then self:ino(0) end
  if op == 4 and not is_ask then self:grant() end
  if op == 5 then
    self:told("dir2", 4, 1, U32)
    self:name("name2")
  end
end

function Reader:tagged_page(low)
  self:file(low)
  self:page()
  self:long("birth", "any")
  self:whole_page()
end

-- Bodies, by kind.

local function nothing() end

local function read_allocate(r)
  r:ino()
  r:grant()
  local page = r:page()
  r:told("count", 2, 1, math.min(64, LAST_PAGE + 1 - page))
end

local function read_ino_grant_page(r)
  r:ino()
  r:grant()
  r:page()
end

local function read_lowered(r)
  r:ino()
  r:grant()
  r:told("lowered_to", 1, 0, 1, LOWERED)
end

local function read_reassert(r)
  local least = 1
  r:rows(0, 1024, function(row)
    least = row:ino(least) + 1
    row:grant()
    row:mode()
  end)
end

local function read_extents(r)
  local least = 0
  r:ino()
  r:rows(0, 64, function(row)
    least = row:page(least) + 1
    row:number("disk", 2, 1, 8)
    row:number("block", 4, 0, 4095)
    row:long("birth", "any")
  end)
end

local function read_named(r)
  local reply = r:told("reply", 1, 0, 2, REPLIES)
  if reply == 0 then r:ino() end
  if reply == 1 then r:entries() end
  if reply == 2 then r:told("code", 1, 1, 8, CODES) end
end

local function read_app(r)
  r:told("op", 4, 0, U32)
  local is_patch = r.version == 2
  local ask = r:told("ask", 1, is_patch and 6 or 1, is_patch and 6 or 5, ASKS)
  if ask == 5 then
    r:told("server", 2, 1, U16)
    r:name_op(true)
    return
  end
  r:file()
  if ask ~= 3 then r:page() end
  if ask == 1 then r:whole_page() end
  if ask == 6 then
    local at = r:told("at", 2, 0, PAGE_BYTES - 1)
    local length = r:told("patch_length", 2, 1, PAGE_BYTES - at)
    r.tree:add(f.patch, r:take(length))
  end
end

local function read_lost(r)
  local least = 0
  r:rows(1, 1024, function(row)
    least = row:page(least) + 1
    row:long("command", "any")
  end)
end

local ANSWER_FIELDS = {
  [1] = function(r) r:whole_page() end,
  [4] = function(r) r:ino() end,
  [5] = function(r) r:entries() end,
  [6] = function(r) r:told("code", 1, 0, 255) end,
  [19] = function(r) r:long("free", "any") r:long("asked", "any") end,
  [20] = function(r) r:long("command", "any") end,
  [22] = function(r) r:long("old", "any") r:long("new", "any") end,
  [23] = read_lost,
}

local function read_appdone(r)
  r:told("op", 4, 0, U32)
  local answer = r:told("answer", 1, 0, 26, ANSWERS);
  (ANSWER_FIELDS[answer] or nothing)(r)
end

local function read_submit(r)
  r:long("command", "any")
  r:told("disk", 2, 0, U16)
  r:told("block", 4, 0, U32)
  if r:told("command_kind", 1, 0, 1, COMMANDS) == 1 then r:tagged_page(1) end
end

local function read_done(r)
  r:long("command", "any")
  if r:told("ending", 1, 0, 2, ENDINGS) == 2 then r:tagged_page(0) end
end

local BODIES = {
  [1] = nothing, [2] = nothing,
  [3] = function(r) r:ino() r:mode() end,
  [4] = read_lowered, [5] = read_ino_grant_page, [6] = read_allocate, [7] = read_ino_grant_page,
  [8] = function(r) r:name_op(false) end,
  [9] = read_reassert,
  [10] = function(r) r:ino() r:grant() end,
  [32] = nothing, [33] = nothing,
  [34] = function(r) r:told("why", 1, 1, 10, CAUSES) r:long("a", "any") r:long("b", "any") end,
  [35] = function(r) r:ino() r:grant() r:mode() end,
  [36] = function(r) r:ino() r:mode() end,
  [37] = read_lowered, [38] = read_extents, [39] = read_named, [40] = nothing,
  [64] = nothing, [65] = read_app, [66] = read_appdone, [67] = read_submit, [68] = read_done,
}

-- Headers.

local function is_client(node) return node >= 1 and node <= 16 end
local function is_server(node) return node >= 32769 and node <= 32772 end
local function is_node(node) return is_client(node) or is_server(node) end
local function is_outside(node) return node == 0 end

-- Who may send and receive the local kinds.
local LOCAL_ENDS = {
  [64] = { is_outside, is_node }, [65] = { is_outside, is_client }, [66] = { is_client, is_outside },
  [67] = { is_client, is_outside }, [68] = { is_outside, is_client },
}

local function ends_of(kind)
  if kind <= 10 then return is_client, is_server end
  if kind <= 40 then return is_server, is_client end
  return LOCAL_ENDS[kind][1], LOCAL_ENDS[kind][2]
end

-- What epoch, number and stamp of the control kinds may be, if it is not positive, positive and
-- any.
local CONTROL_RANGES = {
  [1] = { "zero", "zero", "any" }, [10] = { "positive", "zero", "zero" }, [32] = { "positive", "zero", "any" },
  [34] = { "positive", "any", "any" }, [35] = { "positive", "any", "any" }, [37] = { "positive", "zero", "zero" },
}

-- What life, epoch, number and stamp of a kind may be.
local function ranges_of(kind)
  if kind >= 64 then return "zero", "zero", "zero", "zero" end
  local ranges = CONTROL_RANGES[kind] or { "positive", "positive", "any" }
  return "positive", ranges[1], ranges[2], ranges[3]
end

local function read_header(r)
  local version, item = r:number("version", 1, 0, 255)
  if version ~= 1 and version ~= 2 then refuse("Version", item) end
  r.version = version
  local kind, kind_item = r:number("kind", 1, 0, 255)
  if not KINDS[kind] or (version == 2 and kind ~= 65) then refuse("Kind", kind_item) end
  table.insert(r.words, KINDS[kind])
  local is_sender, is_receiver = ends_of(kind)
  local from = r:number("from", 2, 0, U16, is_sender)
  local to = r:number("to", 2, 0, U16, is_receiver)
  r.words[1] = NODES[from] .. " > " .. NODES[to] .. " " .. KINDS[kind]
  local life, epoch, number, stamp = ranges_of(kind)
  for _, field in ipairs({ { "life", life }, { "epoch", epoch }, { "number", number }, { "stamp", stamp } }) do
    local range = r:long(field[1], field[2])
    if kind < 64 then r:say(field[1], tostring(range:uint64())) end
  end
  return kind
end

local function read_message(r)
  local kind = read_header(r)
  BODIES[kind](r)
  if r.at < r.size then refuse("Long") end
end

-- Frames.

-- Marks a refused frame: the refusal's text is that of a node, and the expert information is at the
-- field.
local function show_refusal(tree, item, name, value)
  local text = value and (name .. " " .. value) or name
  tree:add(f.refusal, text):set_generated()
  tree:append_text(", refused: " .. text)
  item:add_proto_expert_info(REFUSALS[name], text .. ": " .. REASONS[name][2])
end

-- Reads the message of a frame and returns what the packet list says of it.
local function show_message(bytes, begin, size, tree)
  local r = new_reader(bytes, begin, size, tree)
  local went, fault = pcall(read_message, r)
  if not went and type(fault) ~= "table" then error(fault, 0) end
  tree:append_text(": " .. (r.words[1] or "no message"))
  if not went then
    local left = r.size - r.at
    local rest = left > 0 and tree:add(f.unread, bytes(begin + r.at, left))
    show_refusal(tree, fault.item or rest or tree, fault.refusal, fault.offset)
    if fault.offset then tree:add(f.refusal_offset, fault.offset):set_generated() end
    table.insert(r.words, "[" .. fault.refusal .. (fault.offset and " " .. fault.offset or "") .. "]")
  end
  return table.concat(r.words, " ")
end

-- What is known of each direction between two ports: `offset` is the place of the next frame, and
-- `stopped` the packet in which a length was refused. `places` has the offsets of the frames of a
-- packet, in the order of reading: later readings of the packet go through them again.
local streams = {}
local places = {}

function tank.init()
  streams = {}
  places = {}
end

local function stream_of(pinfo)
  local key = string.format("%s %d > %s %d", tostring(pinfo.src), pinfo.src_port, tostring(pinfo.dst), pinfo.dst_port)
  streams[key] = streams[key] or { offset = UInt64(0) }
  return streams[key]
end

-- The place of the next frame of this packet, which has `size` bytes.
local function next_offset(stream, pinfo, size)
  local known = places[pinfo.number] or { read = 0 }
  places[pinfo.number] = known
  if not pinfo.visited then
    table.insert(known, stream.offset)
    stream.offset = stream.offset + size
    return known[#known]
  end
  known.read = known.read % math.max(#known, 1) + 1
  return known[known.read] or UInt64(0)
end

-- Says that more bytes are needed for the frame that begins at `at`: `missing` of them, if this
-- is known.
local function ask_for_more(bytes, pinfo, tree, at, missing)
  local left = bytes:len() - at
  local text = missing and string.format("start of a frame, %d of %d bytes", left, left + missing)
    or string.format("start of a frame, %d of its bytes", left)
  pinfo.desegment_offset = at
  pinfo.desegment_len = missing or DESEGMENT_ONE_MORE_SEGMENT
  tree:add(tank, bytes(at), "Tavsligg node protocol"):add(f.piece, bytes(at)):set_text(text)
end

local function show_unread(bytes, tree, at)
  tree:add(tank, bytes(at), "Tavsligg node protocol, after a refused length"):add(f.unread, bytes(at))
end

-- Shows one whole frame, or a refused length; returns what the packet list says of it.
local function show_frame(bytes, pinfo, tree, stream, at, length)
  local is_long = length > MAX_MESSAGE
  local size = is_long and 4 or 4 + length
  local item = tree:add(tank, bytes(at, size))
  item:add(f.offset, next_offset(stream, pinfo, size)):set_generated()
  local length_item = item:add(f.length, bytes(at, 4))
  if is_long then
    show_refusal(item, length_item, "FrameTooLong", length)
    return "[FrameTooLong " .. length .. "]"
  end
  return show_message(bytes, at + 4, length, item)
end

-- Says in the packet list what was read. The bytes of one packet may come in several calls; the
-- list keeps what earlier calls of this packet said, and this goes after it.
local last_said = nil

local function say_in_list(pinfo, said)
  if #said == 0 then return end
  local text = table.concat(said, "; ")
  local is_same_packet = tostring(pinfo.cols.info) == last_said
  pinfo.cols.info = is_same_packet and "; " .. text or text
  last_said = tostring(pinfo.cols.info)
end

function tank.dissector(bytes, pinfo, tree)
  pinfo.cols.protocol = "TANK"
  local stream = stream_of(pinfo)
  local said = {}
  local at = 0
  while at < bytes:len() do
    local left = bytes:len() - at
    if stream.stopped and (pinfo.number > stream.stopped or said.stopped) then
      show_unread(bytes, tree, at)
      break
    end
    if left < 4 then
      ask_for_more(bytes, pinfo, tree, at, nil)
      break
    end
    local length = bytes(at, 4):uint()
    if length <= MAX_MESSAGE and left < 4 + length then
      ask_for_more(bytes, pinfo, tree, at, 4 + length - left)
      break
    end
    table.insert(said, show_frame(bytes, pinfo, tree, stream, at, length))
    if length > MAX_MESSAGE then
      stream.stopped = stream.stopped or pinfo.number
      said.stopped = true
    end
    at = at + (said.stopped and 4 or 4 + length)
  end
  say_in_list(pinfo, said)
end

local ports = DissectorTable.get("tcp.port")
local port = tank.prefs.port

ports:add(port, tank)

function tank.prefs_changed()
  if port == tank.prefs.port then return end
  ports:remove(port, tank)
  port = tank.prefs.port
  ports:add(port, tank)
end
