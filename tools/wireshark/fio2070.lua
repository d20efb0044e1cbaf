-- Wireshark dissector for the field I/O link of Model 2070 traffic controllers.
--
-- A frame holds one message: its type (49 to 60 for commands of the CPU, 177 to
-- 188 for answers of the module) and the fields of that type. The Info column
-- and the texts of faults are those of `fio2070 show` for the same octets.
--
-- Protocol "fio2070" takes bare messages; "fio2070_sdlc" takes frames with an
-- address and a control octet in front and, by preference, two octets of frame
-- check after it. Both can be chosen in Wireshark's table of user link types
-- (DLT_USER), by their own preference, or with "Decode As" on a UDP port.
--
-- Written for Lua 5.2 (Wireshark 4.0) and later, so without operators on bits.

local link = Proto("fio2070", "Model 2070 Field I/O")
local sdlc = Proto("fio2070_sdlc", "Model 2070 Field I/O, SDLC header")

local LONGEST_FRAME = 773
local LAST_INPUT = 63
local FIRST_ANSWER = 128        -- types from here on are answers
local POLL, BLOCK = 54, 182

---------------------------------------------------------------- written by tools/generate-messages

local type_names = {
  [49] = "Request module status",
  [50] = "Millisecond counter management",
  [51] = "Configure inputs",
  [52] = "Poll raw input data",
  [53] = "Poll filtered input data",
  [54] = "Poll input transition buffer",
  [55] = "Set outputs",
  [56] = "Configure input tracking",
  [57] = "Configure complex outputs",
  [58] = "Configure watchdog",
  [59] = "Controller identification",
  [60] = "Module identification",
  [177] = "Request module status, answer",
  [178] = "Millisecond counter management, answer",
  [179] = "Configure inputs, answer",
  [180] = "Poll raw input data, answer",
  [181] = "Poll filtered input data, answer",
  [182] = "Poll input transition buffer, answer",
  [183] = "Set outputs, answer",
  [184] = "Configure input tracking, answer",
  [185] = "Configure complex outputs, answer",
  [186] = "Configure watchdog, answer",
  [187] = "Controller identification, answer",
  [188] = "Module identification, answer",
}

-- The words of the text, each followed by the field after it, if there is one.
local layouts = {
  [49] = { "status clear", "clear" },
  [50] = { "load counter", "load" },
  [51] = { "configure inputs", "items" },
  [52] = { "raw inputs" },
  [53] = { "filtered inputs" },
  [54] = { "poll block", "block.number" },
  [55] = { "set outputs data", "outputs.data", "control", "outputs.control" },
  [56] = { "other 56 body", "body" },
  [57] = { "other 57 body", "body" },
  [58] = { "watchdog ms", "watchdog.timeout" },
  [59] = { "other 59 body", "body" },
  [60] = { "identify" },
  [177] = { "status flags", "flags", "receive", "errors.receive", "transmit", "errors.transmit", "stamp", "stamp" },
  [178] = { "counter load status", "status" },
  [179] = { "configure status", "status" },
  [180] = { "raw inputs", "inputs", "stamp", "stamp" },
  [181] = { "filtered inputs", "inputs", "stamp", "stamp" },
  [182] = { "block", "block.number", "entries", "block.entries", "status", "block.flags", "stamp", "stamp" },
  [183] = { "other 183 body", "body" },
  [184] = { "other 184 body", "body" },
  [185] = { "other 185 body", "body" },
  [186] = { "watchdog status", "watchdog.status" },
  [187] = { "other 187 body", "body" },
  [188] = { "other 188 body", "body" },
}

local octets_of = {
  ["clear"] = 1,
  ["load"] = 4,
  ["block.number"] = 1,
  ["outputs.data"] = 8,
  ["outputs.control"] = 8,
  ["watchdog.timeout"] = 1,
  ["flags"] = 1,
  ["errors.receive"] = 1,
  ["errors.transmit"] = 1,
  ["stamp"] = 4,
  ["status"] = 1,
  ["inputs"] = 8,
  ["block.flags"] = 1,
  ["watchdog.status"] = 1,
}

-- The bits of a field: letter, mask, meaning.
local bits_of = {
  ["clear"] = {
    { "P", 128, "the module was reset" },
    { "E", 64, "status flag" },
    { "K", 32, "status flag" },
    { "R", 16, "status flag" },
    { "T", 8, "status flag" },
    { "M", 4, "status flag" },
    { "L", 2, "status flag" },
    { "W", 1, "status flag" },
  },
  ["flags"] = {
    { "P", 128, "the module was reset" },
    { "E", 64, "status flag" },
    { "K", 32, "status flag" },
    { "R", 16, "status flag" },
    { "T", 8, "status flag" },
    { "M", 4, "status flag" },
    { "L", 2, "status flag" },
    { "W", 1, "status flag" },
  },
  ["status"] = {
    { "S", 1, "error" },
  },
  ["block.flags"] = {
    { "C", 8, "more entries waited than a block takes" },
    { "F", 4, "entries between the block before and this one were pushed out" },
    { "E", 2, "the same block number was asked for again" },
    { "G", 1, "the number is not the one before plus one" },
  },
  ["watchdog.status"] = {
    { "Y", 1, "the watchdog had been set before" },
  },
}

---------------------------------------------------------------- end of what is written

---------------------------------------------------------------- fields, experts

local field = {}        -- by filter name without "fio2070."

local function declare(kind, name, ...)
  field[name] = ProtoField[kind]("fio2070." .. name, ...)
  return field[name]
end

local notice = {}       -- expert infos, by filter name without "fio2070."

local function declare_notice(name, group, severity, text)
  notice[name] = ProtoExpert.new("fio2070." .. name, text, expert.group[group], expert.severity[severity])
end

for _, words in ipairs { "empty", "too long", "unknown type", "wrong length" } do
  declare_notice("fault." .. words:gsub(" ", "_"), "MALFORMED", "ERROR", words)
end
declare_notice("not_whole", "UNDECODED", "WARN", "frame not captured whole")
declare_notice("bad_input", "PROTOCOL", "WARN", "input above 63")
declare_notice("lost_without_more", "PROTOCOL", "WARN",
  "F without C: entries are lost only where more wait than a block takes")
declare_notice("repeated_poll", "SEQUENCE", "NOTE", "poll of the same block again")
declare_notice("repeated_answer", "SEQUENCE", "NOTE", "further answer to one command")
declare_notice("unasked", "SEQUENCE", "NOTE", "no command in this capture asks for this answer")
declare_notice("gap", "SEQUENCE", "WARN", "a block was skipped")

---------------------------------------------------------------- fields of messages

local read, lists = {}, {}      -- by the name of the field: what adds it to the tree and returns its text; whether it counts elements

-- The number of octets of a field: that of the table, a count and three octets for each element, or all the rest.
local function size_of(name, tvb, offset)
  if octets_of[name] then return octets_of[name] end
  if not lists[name] then return tvb:len() - offset end
  return 1 + 3 * (offset < tvb:len() and tvb(offset, 1):uint() or 0)
end

-- A number, most significant octet first, written in decimal.
local function number(name, label)
  local made = declare("uint" .. 8 * octets_of[name], name, label, base.DEC)
  read[name] = function(range, tree)
    tree:add(made, range)
    return ("%d"):format(range:uint())
  end
end

-- One octet of flags, written in hexadecimal. A bit that gives an expert info
-- when it is one has its name and severity in `infos`, by the bit's letter.
local function flags(name, label, infos)
  local bits, made = bits_of[name], declare("uint8", name, label, base.HEX)
  local flag = {}
  for k, bit in ipairs(bits) do
    local info = infos[bit[1]]
    flag[k] = declare("bool", name .. "." .. bit[1]:lower(), bit[1] .. ", " .. bit[3], 8, nil, bit[2])
    if info then declare_notice(info[1], "SEQUENCE", info[2], bit[1] .. ": " .. bit[3]) end
  end
  read[name] = function(range, tree)
    local value, branch = range:uint(), tree:add(made, range)
    for k, bit in ipairs(bits) do
      local leaf = branch:add(flag[k], range)
      local info = infos[bit[1]]
      if info and math.floor(value / bit[2]) % 2 == 1 then leaf:add_proto_expert_info(notice[info[1]]) end
    end
    return ("%02x"):format(value)
  end
end

-- Octets kept as they come, written in hexadecimal.
local function octets(name, label)
  local made = declare("bytes", name, label)
  read[name] = function(range, tree)
    if range:len() == 0 then return "-" end
    tree:add(made, range)
    return range:bytes():tohex(true)
  end
end

-- A count and that many elements of three octets, each read by `read_element`.
local function list(name, label, read_element)
  local count = declare("uint8", name, label, base.DEC)
  lists[name] = true
  read[name] = function(range, tree, tvb)
    tree:add(count, range(0, 1))
    for place = 1, range:len() - 3, 3 do read_element(range(place, 3), tree, tvb) end
    return ("%d"):format(range(0, 1):uint())
  end
end

-- A function that adds an element of three octets with its text to the tree.
-- A column is { name, label, first octet, number of octets, mask or nil }.
local function element(name, label, columns)
  local made = declare("none", name, label)
  for _, column in ipairs(columns) do
    column.field = declare("uint" .. 8 * column[4], name .. "." .. column[1], column[2], base.DEC, nil, column[5])
  end
  return function(range, tree, text, ...)
    local branch, input = tree:add(made, range), range:bitfield(1, 7)
    branch:set_text(text:format(input, range:bitfield(0, 1), ...))
    for _, column in ipairs(columns) do branch:add(column.field, range(column[3], column[4])) end
    if input > LAST_INPUT then
      branch:add_proto_expert_info(notice.bad_input, ("input %d is above %d"):format(input, LAST_INPUT))
    end
    return branch
  end
end

local add_item = element("item", "Item", {
  { "input", "Input", 0, 1, 127 }, { "ignore", "Ignore", 0, 1, 128 },
  { "leading", "Leading filter", 1, 1 }, { "trailing", "Trailing filter", 2, 1 },
})

local function read_item(range, tree)
  add_item(range, tree, "input %d ignore %d leading %d trailing %d", range(1, 1):uint(), range(2, 1):uint())
end

local add_entry = element("entry", "Entry", {
  { "input", "Input", 0, 1, 127 }, { "state", "State after the transition", 0, 1, 128 },
  { "stamp", "Stamp, low 16 bits", 1, 2 },
})
declare("uint32", "entry.wide", "Time, widened from the stamp of the block", base.DEC)

-- The one number with these low 16 bits that is at most 65,535 steps before the stamp.
local function widen(stamp, low)
  return (stamp - (stamp - low) % 65536) % 4294967296
end

local function read_entry(range, tree, tvb)
  local low = range(1, 2)
  local wide = widen(tvb(tvb:len() - 4, 4):uint(), low:uint())    -- the stamp ends the frame
  local branch = add_entry(range, tree, "input %d state %d stamp %d wide %d", low:uint(), wide)
  branch:add(field["entry.wide"], low, wide):set_generated()
end

---------------------------------------------------------------- messages

flags("clear", "Flags to clear", {})
flags("flags", "Flags that remain", { P = { "reset", "NOTE" } })
number("errors.receive", "Errors in receiving")
number("errors.transmit", "Errors in transmitting")
number("load", "Number to load into the counter")
flags("status", "Status", { S = { "refused", "WARN" } })
list("items", "Items", read_item)
number("block.number", "Block number")
list("block.entries", "Entries", read_entry)
flags("block.flags", "Status", {
  C = { "more", "NOTE" }, F = { "lost", "WARN" }, E = { "again", "NOTE" }, G = { "out_of_sequence", "WARN" },
})
number("stamp", "Stamp")
octets("inputs", "Inputs, input 0 in the lowest bit of the first octet")
octets("outputs.data", "Data octets")
octets("outputs.control", "Control octets")
number("watchdog.timeout", "Timeout in milliseconds")
flags("watchdog.status", "Status", {})
octets("body", "Body")

declare("uint8", "type", "Type", base.DEC, type_names)
declare("bool", "type.answer", "Direction", 8, { "answer of the module", "command of the CPU" }, FIRST_ANSWER)
declare("bytes", "octets", "Octets of the frame")
declare("bytes", "undecoded", "Octets that are no message")
declare("framenum", "response_in", "Answer in", base.NONE, frametype.RESPONSE)
declare("framenum", "response_to", "Answer to", base.NONE, frametype.REQUEST)
declare("relative_time", "time", "Time since the command")
declare("framenum", "repeat_of", "Same block was asked for in", base.NONE, frametype.RETRANS_PREV)

link.fields = field
link.experts = notice

-- The notice and the text of the first fault that applies, or nil.
local function fault_of(tvb)
  local got = tvb:len()
  if got == 0 then return "fault.empty", "empty" end
  if got > LONGEST_FRAME then return "fault.too_long", ("too long got %d"):format(got) end
  local code, needed = tvb(0, 1):uint(), 1
  local layout = layouts[code]
  if not layout then return "fault.unknown_type", ("unknown type %d"):format(code) end
  for k = 2, #layout, 2 do needed = needed + size_of(layout[k], tvb, needed) end
  if got ~= needed then return "fault.wrong_length", ("wrong length needed %d got %d"):format(needed, got) end
end

-- Adds the fields of a message without fault and returns its text.
local function read_message(tvb, tree)
  local words, offset = { table.unpack(layouts[tvb(0, 1):uint()]) }, 1
  for k = 2, #words, 2 do
    local name = words[k]
    local size = size_of(name, tvb, offset)
    words[k] = read[name](tvb(offset, size), tree, tvb)
    offset = offset + size
  end
  return table.concat(words, " ")
end

---------------------------------------------------------------- conversations

local conversations, facts      -- by the two ends; by the number of the frame

function link.init()
  conversations, facts = {}, {}
end

local function conversation_of(pinfo, station)
  local one, other = tostring(pinfo.src) .. " " .. pinfo.src_port, tostring(pinfo.dst) .. " " .. pinfo.dst_port
  if other < one then one, other = other, one end
  local ends = one .. " " .. other .. " " .. station
  conversations[ends] = conversations[ends] or { commands = {} }
  return conversations[ends]
end

-- Compares a poll with the one before it in the conversation.
local function follow_poll(conversation, fact)
  local earlier = conversation.poll
  conversation.poll = fact
  if not earlier then return end
  if fact.block == earlier.block then
    fact.repeat_of = earlier.frame
  elseif fact.block ~= (earlier.block + 1) % 256 then
    fact.gap = ("block %d is asked for after block %d"):format(fact.block, earlier.block)
  elseif not earlier.response_in then
    fact.gap = ("block %d was given up: no answer to it in this capture"):format(earlier.block)
  end
end

-- Finds the links of a frame when it is first dissected. An answer belongs to the
-- latest command of its type (a block answer: to the latest poll of its number).
local function facts_of(tvb, pinfo, station)
  if facts[pinfo.number] then return facts[pinfo.number] end
  local code = tvb(0, 1):uint()
  local fact = { frame = pinfo.number, at = pinfo.rel_ts }
  facts[pinfo.number] = fact
  if code % FIRST_ANSWER == POLL then fact.block = tvb(1, 1):uint() end
  local key = ("%d %s"):format(code % FIRST_ANSWER, fact.block or "")
  local conversation = conversation_of(pinfo, station)
  if code < FIRST_ANSWER then
    if code == POLL then follow_poll(conversation, fact) end
    conversation.commands[key] = fact
  else
    fact.command = conversation.commands[key]
    if fact.command then fact.command.response_in = fact.command.response_in or fact.frame end
  end
  return fact
end

local function add_links(fact, tree, is_answer)
  local function add(name, value) tree:add(field[name], value):set_generated() end
  local command = fact.command
  if command then
    add("response_to", command.frame)
    local nanoseconds = math.floor((fact.at - command.at) * 1e9 + 0.5)
    add("time", NSTime.new(math.floor(nanoseconds / 1e9), nanoseconds % 1e9))
    if command.response_in ~= fact.frame then
      tree:add_proto_expert_info(notice.repeated_answer,
        ("further answer to one command, the first is in frame %d"):format(command.response_in))
    end
  elseif is_answer then
    tree:add_proto_expert_info(notice.unasked)
  end
  if fact.response_in then add("response_in", fact.response_in) end
  if fact.repeat_of then
    add("repeat_of", fact.repeat_of)
    tree:add_proto_expert_info(notice.repeated_poll, ("poll of block %d again"):format(fact.block))
  end
  if fact.gap then tree:add_proto_expert_info(notice.gap, fact.gap) end
end

---------------------------------------------------------------- dissectors

-- `station` is the address in front of the message, or empty; `whole` is true if
-- the capture holds all octets of the frame.
local function dissect(tvb, pinfo, tree, station, whole)
  pinfo.cols.protocol = "FIO2070"
  local root = tree:add(link, tvb())
  local code = tvb:len() > 0 and tvb(0, 1):uint()
  local is_answer = code and code >= FIRST_ANSWER
  if code then
    root:add(field["octets"], tvb()):set_hidden()      -- for tshark -T fields -e fio2070.octets
    root:add(field["type"], tvb(0, 1))
    root:add(field["type.answer"], tvb(0, 1))
    if tostring(pinfo.src) == "NONE" then
      pinfo.cols.src, pinfo.cols.dst = is_answer and "module" or "CPU", is_answer and "CPU" or "module"
    end
  end
  local fault, text = fault_of(tvb)
  if not whole then fault, text = "not_whole", "frame not captured whole" end
  if fault then
    if tvb:len() > 1 then root:add(field["undecoded"], tvb(1)) end
    root:add_proto_expert_info(notice[fault], text)
  else
    text = read_message(tvb, root)
    add_links(facts_of(tvb, pinfo, station), root, is_answer)
    if code == BLOCK and tvb(tvb:len() - 5, 1):bitfield(4, 2) == 1 then
      root:add_proto_expert_info(notice.lost_without_more)
    end
  end
  root:append_text(": " .. text)
  pinfo.cols.info = text
  return tvb:len()
end

function link.dissector(tvb, pinfo, tree)
  return dissect(tvb, pinfo, tree, "", tvb:len() == tvb:reported_len())
end

sdlc.fields = {
  ProtoField.uint8("fio2070_sdlc.address", "Address", base.HEX),
  ProtoField.uint8("fio2070_sdlc.control", "Control", base.HEX),
  ProtoField.uint16("fio2070_sdlc.check", "Frame check", base.HEX),
}
local bad_check =
  ProtoExpert.new("fio2070_sdlc.bad_check", "wrong frame check", expert.group.CHECKSUM, expert.severity.ERROR)
sdlc.experts = { bad_check }
sdlc.prefs.check = Pref.bool("Two octets of frame check", true, "Each frame ends with two octets of frame check")

local function xor(one, other)
  local result, place = 0, 1
  while one > 0 or other > 0 do
    if one % 2 ~= other % 2 then result = result + place end
    one, other, place = math.floor(one / 2), math.floor(other / 2), place * 2
  end
  return result
end

local check_of_octet = {}       -- the part of FCS-16 that each octet adds, lowest bit first
for octet = 0, 255 do
  local check = octet
  for _ = 1, 8 do
    check = check % 2 == 1 and xor(math.floor(check / 2), 0x8408) or math.floor(check / 2)
  end
  check_of_octet[octet] = check
end

-- The frame check that these octets need.
local function frame_check(range)
  local check, octets = 0xffff, range:bytes()
  for place = 0, octets:len() - 1 do
    check = xor(check_of_octet[xor(check % 256, octets:get_index(place))], math.floor(check / 256))
  end
  return xor(check, 0xffff)
end

local function add_check(tvb, tree, place)
  local item, needed = tree:add_le(sdlc.fields[3], tvb(place, 2)), frame_check(tvb(0, place))
  if tvb(place, 2):le_uint() ~= needed then
    item:add_proto_expert_info(bad_check, ("frame check %04x is not %04x"):format(tvb(place, 2):le_uint(), needed))
  end
end

function sdlc.dissector(tvb, pinfo, tree)
  local whole = tvb:len() == tvb:reported_len()
  local behind = whole and sdlc.prefs.check and 2 or 0
  local length = tvb:len() - 2 - behind
  if length < 0 then return 0 end
  local root = tree:add(sdlc, tvb(0, 2))
  root:add(sdlc.fields[1], tvb(0, 1))
  root:add(sdlc.fields[2], tvb(1, 1))
  if behind > 0 then add_check(tvb, root, 2 + length) end
  if length == 0 then
    pinfo.cols.protocol, pinfo.cols.info = "FIO2070", "frame without a message"
  else
    dissect(tvb(2, length):tvb(), pinfo, tree, tvb(0, 1):uint(), whole)
  end
  return tvb:len()
end

---------------------------------------------------------------- registration

DissectorTable.get("udp.port"):add_for_decode_as(link)
DissectorTable.get("udp.port"):add_for_decode_as(sdlc)

-- Each protocol has a preference for the user link types (DLT_USER) it takes.
for _, proto in ipairs { link, sdlc } do
  local encapsulations, taken = DissectorTable.get("wtap_encap"), {}
  proto.prefs.user =
    Pref.range("User link types", "", "Numbers 0 to 15 of the user link types (DLT 147 to 162) to take", 15)

  function proto.prefs_changed()
    for _, number in ipairs(taken) do
      encapsulations:remove(number, proto)
      encapsulations:add(number, Dissector.get("user_dlt"))
    end
    taken = {}
    for first, last in proto.prefs.user:gmatch("(%d+)%-?(%d*)") do
      for number = tonumber(first), tonumber(last) or tonumber(first) do
        taken[#taken + 1] = wtap_encaps.USER0 + number
        encapsulations:add(wtap_encaps.USER0 + number, proto)
      end
    end
  end
end
