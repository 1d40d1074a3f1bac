-- AudioFile for Wireshark and tshark: setups, requests, replies, errors and events, as audiofile-protocol(7) has them.
--
--   tshark -X lua_script:audiofile.lua -r FILE          and Wireshark reads it from its folder of personal plugins
--
-- A connection is known by its port (1701, or what the preferences say) or by the good setup that its client sends first. So any
-- port will do where a capture has that in one segment, and nothing else is taken for a connection there. The setup also says in
-- which order numbers are; without it the preferences do. Fields are those of the protocol: `audiofile.time`,
-- `audiofile.context`; a display filter such as `audiofile.error` or `audiofile.opcode == 6` finds messages.

-- where it lies in a folder of plugins, and is named by a command too, it is read twice
local can_ask, is_read = pcall(Dissector.get, "audiofile")
if can_ask and is_read then return end

local audiofile = Proto("audiofile", "AudioFile")

audiofile.prefs.ports = Pref.range("TCP ports", "1701", "Ports of servers", 65535)
audiofile.prefs.little = Pref.bool("Little-endian without a setup", false, "Whether numbers are so where a capture begins after the setup")

-- how a setup begins, and whether the numbers of its link are little-endian. Samples are big-endian on every link
local ORDERS = { [0x41464200] = false, [0x41466c00] = true }
local VERSION = 1
local LONGEST_FRAME = 4096

local SWITCHES = { [0] = "off", [1] = "on" }
local HOOKS = { [0] = "on hook", [1] = "off hook" }
-- the bits of the mask of SetControls
local CONTROLS = { input_gain = 1, output_gain = 2, input_on = 4, output_on = 8 }
local TYPES = { [0] = "mu255", [1] = "alaw", [2] = "lin16", [3] = "lin32" }
local KINDS = { [0] = "error", [1] = "reply", [2] = "event" }
local EVENTS = { [1] = "Ring", [2] = "Hook", [4] = "Current", [8] = "Digit" }
local ERRORS = {
    [1] = "BadSetup", [2] = "BadValue", [3] = "BadDevice", [4] = "BadAC", [5] = "BadIDChoice", [6] = "BadMatch", [7] = "TooManyACs",
    [8] = "BadLine",
}
local RATES = { [8000] = true, [11025] = true, [16000] = true, [22050] = true, [32000] = true, [44100] = true, [48000] = true }

-- a request: its name, what its detail is, its words (those of a Play without its data), and its fields: name, offset, bytes
local REQUESTS = {
    [1] = { name = "NoOp", words = 1 },
    [2] = { name = "GetTime", detail = "device", words = 1 },
    [3] = {
        name = "CreateAC", detail = "device", words = 4,
        { "context", 4, 4 }, { "type", 8, 1 }, { "channels", 9, 1 }, { "preempt", 10, 1 }, { "play_gain", 12, 2 }, { "record_gain", 14, 2 },
    },
    [4] = {
        name = "ChangeAC", detail = "mask", words = 4,
        { "context", 4, 4 }, { "preempt", 8, 1 }, { "play_gain", 12, 2 }, { "record_gain", 14, 2 },
    },
    [5] = { name = "FreeAC", words = 2, { "context", 4, 4 } },
    [6] = { name = "Play", detail = "quiet", words = 4, has_data = true, { "context", 4, 4 }, { "time", 8, 4 }, { "count", 12, 4 } },
    [7] = { name = "Record", detail = "waits", words = 4, { "context", 4, 4 }, { "time", 8, 4 }, { "count", 12, 4 } },
    [8] = { name = "SelectEvents", detail = "device", words = 2, { "events", 4, 4 } },
    [9] = {
        name = "SetControls", detail = "device", words = 3,
        { "mask", 4, 1 }, { "input_on", 5, 1 }, { "output_on", 6, 1 }, { "input_gain", 8, 2 }, { "output_gain", 10, 2 },
    },
    [10] = { name = "QueryControls", detail = "device", words = 1 },
    [11] = { name = "HookSwitch", detail = "device", words = 2, { "off", 4, 4 } },
    [12] = { name = "QueryPhone", detail = "device", words = 1 },
}

-- the body of a reply: its words (those of a Record without its data), its fields, and the bytes that are zeros
local TIME = { words = 1, { "time", 8, 4 } }
local EMPTY = { words = 0 }
local REPLIES = {
    [2] = TIME, [3] = EMPTY, [4] = EMPTY, [5] = EMPTY, [6] = TIME, [8] = EMPTY, [9] = EMPTY, [11] = EMPTY,
    [7] = { words = 2, has_data = true, { "time", 8, 4 }, { "count", 12, 4 } },
    [10] = {
        words = 2, flags = { 8, 9 }, zeros = { 10, 2 }, gains = { 12, 14 },
        { "input_on", 8, 1 }, { "output_on", 9, 1 }, { "input_gain", 12, 2 }, { "output_gain", 14, 2 },
    },
    [12] = {
        words = 2, flags = { 8, 9, 10, 11, 12 }, zeros = { 13, 3 },
        { "wanted", 8, 1 }, { "given", 9, 1 }, { "ringing", 10, 1 }, { "current", 11, 1 }, { "dead", 12, 1 },
    },
}

local NAMES = { [0] = "setup" }
for opcode, layout in pairs(REQUESTS) do NAMES[opcode] = layout.name end

local fields = {
    says = ProtoField.string("audiofile.says", "Says"),
    magic = ProtoField.bytes("audiofile.magic", "Protocol"),
    order = ProtoField.string("audiofile.order", "Byte order"),
    major = ProtoField.uint16("audiofile.major", "Major version"),
    minor = ProtoField.uint16("audiofile.minor", "Minor version"),
    opcode = ProtoField.uint8("audiofile.opcode", "Request", base.DEC, NAMES),
    words = ProtoField.uint32("audiofile.words", "Length in words"),
    number = ProtoField.uint16("audiofile.number", "Number of the request"),
    kind = ProtoField.uint8("audiofile.kind", "Kind", base.DEC, KINDS),
    reply = ProtoField.uint8("audiofile.reply", "Reply to", base.DEC, NAMES),
    error = ProtoField.uint8("audiofile.error", "Error", base.DEC, ERRORS),
    event = ProtoField.uint8("audiofile.event", "Event", base.DEC, EVENTS),
    refused = ProtoField.uint8("audiofile.refused", "Refused request", base.DEC, NAMES),
    asked_in = ProtoField.framenum("audiofile.asked_in", "Asked in", base.NONE, frametype.REQUEST),
    device = ProtoField.uint32("audiofile.device", "Device"),
    context = ProtoField.uint32("audiofile.context", "Context"),
    type = ProtoField.uint8("audiofile.type", "Sample type", base.DEC, TYPES),
    channels = ProtoField.uint8("audiofile.channels", "Channels"),
    preempt = ProtoField.uint8("audiofile.preempt", "Preempts"),
    play_gain = ProtoField.int16("audiofile.play_gain", "Play gain (dB)"),
    record_gain = ProtoField.int16("audiofile.record_gain", "Record gain (dB)"),
    mask = ProtoField.uint8("audiofile.mask", "Fields that change", base.HEX),
    time = ProtoField.uint32("audiofile.time", "Device time"),
    late = ProtoField.uint32("audiofile.late", "Late by frames"),
    count = ProtoField.uint32("audiofile.count", "Bytes of data"),
    data = ProtoField.bytes("audiofile.data", "Samples"),
    quiet = ProtoField.bool("audiofile.quiet", "No reply is wanted", 8, nil, 1),
    waits = ProtoField.bool("audiofile.waits", "Waits for all samples", 8, nil, 1),
    events = ProtoField.uint32("audiofile.events", "Events", base.HEX),
    input_on = ProtoField.uint8("audiofile.input_on", "Input", base.DEC, SWITCHES),
    output_on = ProtoField.uint8("audiofile.output_on", "Output", base.DEC, SWITCHES),
    input_gain = ProtoField.int16("audiofile.input_gain", "Input gain (dB)"),
    output_gain = ProtoField.int16("audiofile.output_gain", "Output gain (dB)"),
    off = ProtoField.uint32("audiofile.off", "Hook", base.DEC, HOOKS),
    value = ProtoField.uint32("audiofile.value", "Value"),
    devices = ProtoField.uint32("audiofile.devices", "Devices"),
    has_line = ProtoField.uint8("audiofile.has_line", "Telephone line"),
    rate = ProtoField.uint32("audiofile.rate", "Frames a second"),
    horizon = ProtoField.uint32("audiofile.horizon", "Horizon in frames"),
    wanted = ProtoField.uint8("audiofile.wanted", "Wanted off hook"),
    given = ProtoField.uint8("audiofile.given", "Given off hook"),
    ringing = ProtoField.uint8("audiofile.ringing", "Rings"),
    current = ProtoField.uint8("audiofile.current", "Current flows"),
    dead = ProtoField.uint8("audiofile.dead", "Line is dead"),
}
for bit, name in pairs(EVENTS) do
    fields["event_" .. bit] = ProtoField.bool("audiofile.events." .. name:lower(), name, 32, nil, bit)
end
audiofile.fields = fields

local malformed = ProtoExpert.new("audiofile.malformed", "Malformed", expert.group.MALFORMED, expert.severity.ERROR)
local refused = ProtoExpert.new("audiofile.refusal", "Refused", expert.group.RESPONSE_CODE, expert.severity.NOTE)
local came_late = ProtoExpert.new("audiofile.came_late", "Came too late", expert.group.SEQUENCE, expert.severity.WARN)
audiofile.experts = { malformed, refused, came_late }

-- Each connection, by its two ends: the server's port, whether its numbers are little-endian now, and how many requests it has
-- had. The first pass over the frames fills its tables. `setups` has each setup, with its frame and its byte order, as ports may
-- be used again. `numbers` has the number of each request by its place. `asked` has the frame of the request that each message
-- answers. `frames` has the frame of each number, and `starts` the time of each Play by its number. `late` has by how many frames
-- a Play was late, if its reply says so.
local streams = {}

function audiofile.init()
    streams = {}
end

local function stream_of(pinfo)
    local one = tostring(pinfo.src) .. " " .. pinfo.src_port
    local other = tostring(pinfo.dst) .. " " .. pinfo.dst_port
    local ends = one < other and one .. " " .. other or other .. " " .. one
    streams[ends] = streams[ends] or { little = false, count = nil, setups = {}, numbers = {}, asked = {}, frames = {}, starts = {}, late = {} }
    return streams[ends]
end

-- the order in a frame is that of the last setup up to there
local function is_little_in(stream, frame)
    local little = audiofile.prefs.little
    for _, each in ipairs(stream.setups) do
        if each.frame <= frame then little = each.little end
    end
    return little
end

local function place_of(tvb, pinfo)
    return pinfo.number .. "/" .. tvb:offset()
end

local function number_at(stream, range)
    return stream.little and range:le_uint() or range:uint()
end

local function signed_at(stream, range)
    return stream.little and range:le_int() or range:int()
end

-- every number is added here, in the order of its link
local function add(stream, tree, name, range)
    if stream.little then return tree:add_le(fields[name], range) end
    return tree:add(fields[name], range)
end

-- the fields of a layout; of controls those that a mask leaves out are said to stay
local function add_all(stream, tree, layout, tvb, mask)
    for _, each in ipairs(layout) do
        local item = add(stream, tree, each[1], tvb(each[2], each[3]))
        local bit = mask and CONTROLS[each[1]]
        if bit and mask % (2 * bit) < bit then item:append_text(", which is not set") end
    end
end

local function padded(size)
    return size + (-size % 4)
end

-- Describes a message: its name as a field for filters, and with more of it in the tree and in the list of packets, after what is
-- there already.
local function say(pinfo, tree, text, more)
    tree:add(fields.says, text):set_generated()
    text = text .. (more or "")
    tree:append_text(", " .. text)
    if pinfo.private.audiofile then
        pinfo.cols.info:append("; " .. text)
    else
        pinfo.cols.protocol = "AudioFile"
        pinfo.cols.info = text
        pinfo.private.audiofile = "said"
    end
    pinfo.cols.info:fence()
end

-- how a field is told in the list of packets, by its value. Others are not told there
local TOLD = {
    context = function(value) return "context " .. value end,
    time = function(value) return "time " .. value end,
    count = function(value) return value .. " bytes" end,
    input_on = function(value) return "input " .. (SWITCHES[value] or value) end,
    output_on = function(value) return "output " .. (SWITCHES[value] or value) end,
    input_gain = function(value) return "input gain " .. value .. " dB" end,
    output_gain = function(value) return "output gain " .. value .. " dB" end,
    off = function(value) return HOOKS[value] or "hook " .. value end,
}

-- what is told of some requests and replies beside their names: times, how much sound, controls and hooks. Of controls those that
-- a mask leaves out are not told
local function more_of(layout, stream, tvb, mask)
    local parts = {}
    for _, each in ipairs(layout) do
        local tell, bit = TOLD[each[1]], mask and CONTROLS[each[1]]
        if tell and not (bit and mask % (2 * bit) < bit) then
            local range = tvb(each[2], each[3])
            parts[#parts + 1] = tell((each[3] == 2 and signed_at or number_at)(stream, range))
        end
    end
    return #parts > 0 and " (" .. table.concat(parts, ", ") .. ")" or ""
end

local function is_bad(pinfo, tree, why)
    tree:add_proto_expert_info(malformed, why)
    say(pinfo, tree, "malformed: " .. why)
end

-- what a client sends

local function frame_length(stream, tvb, offset)
    if ORDERS[tvb(offset, 4):uint()] ~= nil then return 8 end
    local words = number_at(stream, tvb(offset + 2, 2))
    if words == 0 or words > LONGEST_FRAME then return tvb:len() - offset end
    return 4 * words
end

local function setup(stream, tvb, pinfo, tree)
    stream.little = ORDERS[tvb(0, 4):uint()]
    tree:add(fields.magic, tvb(0, 4))
    tree:add(fields.order, tvb(0, 4), stream.little and "little-endian" or "big-endian"):set_generated()
    add(stream, tree, "major", tvb(4, 2))
    add(stream, tree, "minor", tvb(6, 2))
    if not pinfo.visited then
        stream.count = 0
        table.insert(stream.setups, { frame = pinfo.number, little = stream.little })
    end
    local major = number_at(stream, tvb(4, 2))
    if major ~= VERSION then return is_bad(pinfo, tree, "a setup of version " .. major) end
    say(pinfo, tree, "setup", stream.little and " (little-endian)")
end

-- the number of the request that stands here: they count from the setup on, which has to be in the capture
local function request_number(stream, tvb, pinfo)
    local place = place_of(tvb, pinfo)
    if not pinfo.visited and stream.count and not stream.numbers[place] then
        stream.count = (stream.count + 1) % 65536
        stream.numbers[place] = stream.count
        stream.frames[stream.count] = pinfo.number
    end
    return stream.numbers[place]
end

local function request_words(layout, stream, tvb)
    local words = layout.words
    if layout.has_data and tvb:len() >= 4 * words then words = words + padded(number_at(stream, tvb(12, 4))) / 4 end
    return words
end

local function request(stream, tvb, pinfo, tree)
    local opcode, words = tvb(0, 1):uint(), number_at(stream, tvb(2, 2))
    add(stream, tree, "opcode", tvb(0, 1))
    add(stream, tree, "words", tvb(2, 2))
    local layout = REQUESTS[opcode]
    if words == 0 or words > LONGEST_FRAME then return is_bad(pinfo, tree, "a frame of " .. words .. " words") end
    if not layout then return is_bad(pinfo, tree, "opcode " .. opcode .. ", which is no request") end
    if words ~= request_words(layout, stream, tvb) then return is_bad(pinfo, tree, "a " .. layout.name .. " of " .. words .. " words") end
    local mask = opcode == 9 and tvb(4, 1):uint() or nil
    if layout.detail then add(stream, tree, layout.detail, tvb(1, 1)) end
    add_all(stream, tree, layout, tvb, mask)
    if opcode == 8 then
        for bit in pairs(EVENTS) do add(stream, tree, "event_" .. bit, tvb(4, 4)) end
    end
    local count = layout.has_data and number_at(stream, tvb(12, 4)) or 0
    if count > 0 then tree:add(fields.data, tvb(16, count)) end
    local number = request_number(stream, tvb, pinfo)
    if number then tree:add(fields.number, number):set_generated() end
    if number and opcode == 6 and not pinfo.visited then stream.starts[number] = number_at(stream, tvb(8, 4)) end
    say(pinfo, tree, layout.name .. (number and " " .. number or ""), more_of(layout, stream, tvb, mask))
end

-- what a server sends

local function is_head(kind, detail, words)
    if kind == 0 then return ERRORS[detail] ~= nil and words == 2 end
    if kind == 2 then return EVENTS[detail] ~= nil and words == 3 end
    return kind == 1 and (detail == 0 or REPLIES[detail] ~= nil) and words <= 4002
end

local function message_length(stream, tvb, offset)
    local words = number_at(stream, tvb(offset + 4, 4))
    if not is_head(tvb(offset, 1):uint(), tvb(offset + 1, 1):uint(), words) then return tvb:len() - offset end
    return 8 + 4 * words
end

local function are_zeros(tvb, offset, size)
    for at = offset, offset + size - 1 do
        if tvb(at, 1):uint() ~= 0 then return false end
    end
    return true
end

-- whether a body is one of this layout
local function is_body(layout, stream, tvb)
    local size = tvb:len() - 8
    if not layout or size < 4 * layout.words then return false end
    local count = layout.has_data and number_at(stream, tvb(12, 4)) or 0
    if size ~= 4 * layout.words + padded(count) or not are_zeros(tvb, 16 + count, layout.has_data and -count % 4 or 0) then return false end
    for _, at in ipairs(layout.flags or {}) do
        if tvb(at, 1):uint() > 1 then return false end
    end
    for _, at in ipairs(layout.gains or {}) do
        if math.abs(signed_at(stream, tvb(at, 2))) > 30 then return false end
    end
    return not layout.zeros or are_zeros(tvb, layout.zeros[1], layout.zeros[2])
end

local DEVICE = { { "type", 0, 1 }, { "channels", 1, 1 }, { "has_line", 2, 1 }, { "rate", 4, 4 }, { "horizon", 8, 4 } }

local function is_device(stream, tvb, at)
    local channels, rate = tvb(at + 1, 1):uint(), number_at(stream, tvb(at + 4, 4))
    return tvb(at, 1):uint() <= 3 and (channels == 1 or channels == 2) and tvb(at + 2, 1):uint() <= 1 and tvb(at + 3, 1):uint() == 0
        and RATES[rate] and number_at(stream, tvb(at + 8, 4)) == 4 * rate
end

-- the answer to a setup, and whether it is one
local function devices(stream, tvb, tree)
    if tvb:len() < 16 then return false end
    local count = number_at(stream, tvb(12, 4))
    add(stream, tree, "major", tvb(8, 2))
    add(stream, tree, "minor", tvb(10, 2))
    add(stream, tree, "devices", tvb(12, 4))
    if number_at(stream, tvb(8, 2)) ~= 1 or number_at(stream, tvb(10, 2)) ~= 0 then return false end
    if count < 1 or count > 8 or tvb:len() ~= 16 + 12 * count then return false end
    local all = true
    for each = 0, count - 1 do
        local at = 16 + 12 * each
        local part = tree:add(tvb(at, 12), "Device " .. each)
        for _, one in ipairs(DEVICE) do add(stream, part, one[1], tvb(at + one[2], one[3])) end
        all = all and is_device(stream, tvb, at)
    end
    return all
end

-- which request a message answers, in words, with the frame that it is in
local function answered(stream, tvb, pinfo, tree, opcode, number)
    if opcode == 0 then return "setup" end
    local place = place_of(tvb, pinfo)
    if not pinfo.visited then stream.asked[place] = stream.frames[number] end
    if stream.asked[place] then tree:add(fields.asked_in, stream.asked[place]):set_generated() end
    return (NAMES[opcode] or "opcode " .. opcode) .. " " .. number
end

-- by how many frames a Play came too late, by the time of its reply. Nothing where it was in time
local function late_by(stream, tvb, pinfo, number)
    local place = place_of(tvb, pinfo)
    local start = stream.starts[number]
    if not pinfo.visited and start then
        local late = (number_at(stream, tvb(8, 4)) - start) % 4294967296
        if late > 0 and late < 2147483648 then stream.late[place] = late end
    end
    return stream.late[place]
end

local function reply(stream, tvb, pinfo, tree, opcode, number)
    add(stream, tree, "reply", tvb(1, 1))
    local text = "reply to " .. answered(stream, tvb, pinfo, tree, opcode, number)
    if opcode == 0 then
        if not devices(stream, tvb, tree) then return is_bad(pinfo, tree, "no " .. text) end
        return say(pinfo, tree, text)
    end
    local layout = REPLIES[opcode]
    if not is_body(layout, stream, tvb) then return is_bad(pinfo, tree, "no " .. text) end
    add_all(stream, tree, layout, tvb)
    local count = layout.has_data and number_at(stream, tvb(12, 4)) or 0
    if count > 0 then tree:add(fields.data, tvb(16, count)) end
    local late = opcode == 6 and late_by(stream, tvb, pinfo, number)
    if late then
        tree:add(fields.late, late):set_generated()
        tree:add_proto_expert_info(came_late, "The first frame came " .. late .. " too late")
    end
    say(pinfo, tree, text, more_of(layout, stream, tvb) .. (late and ", late by " .. late .. " frames" or ""))
end

local function failure(stream, tvb, pinfo, tree, code, number)
    add(stream, tree, "error", tvb(1, 1))
    add(stream, tree, "value", tvb(8, 4))
    add(stream, tree, "refused", tvb(12, 1))
    local text = "error " .. ERRORS[code] .. " to " .. answered(stream, tvb, pinfo, tree, tvb(12, 1):uint(), number)
    if not are_zeros(tvb, 13, 3) then return is_bad(pinfo, tree, "no " .. text) end
    tree:add_proto_expert_info(refused, text)
    say(pinfo, tree, text)
end

local function event(stream, tvb, pinfo, tree, kind)
    add(stream, tree, "event", tvb(1, 1))
    local layout = { { "device", 8, 4 }, { "time", 12, 4 }, { "value", 16, 4 } }
    add_all(stream, tree, layout, tvb)
    local text = "event " .. EVENTS[kind]
    if number_at(stream, tvb(8, 4)) > 7 or kind ~= 8 and number_at(stream, tvb(16, 4)) > 1 then return is_bad(pinfo, tree, "no " .. text) end
    say(pinfo, tree, text, more_of(layout, stream, tvb))
end

local function message(stream, tvb, pinfo, tree)
    local kind, detail = tvb(0, 1):uint(), tvb(1, 1):uint()
    add(stream, tree, "kind", tvb(0, 1))
    local number = number_at(stream, tvb(2, 2))
    if not is_head(kind, detail, number_at(stream, tvb(4, 4))) then return is_bad(pinfo, tree, "no head of a message") end
    add(stream, tree, "number", tvb(2, 2))
    add(stream, tree, "words", tvb(4, 4))
    if kind == 0 then return failure(stream, tvb, pinfo, tree, detail, number) end
    if kind == 2 then return event(stream, tvb, pinfo, tree, detail) end
    reply(stream, tvb, pinfo, tree, detail, number)
end

-- a whole setup or frame, and a whole message

local function one(tvb, pinfo, tree, to_server)
    local stream = stream_of(pinfo)
    local part = tree:add(audiofile, tvb(), "AudioFile")
    if not to_server then
        message(stream, tvb, pinfo, part)
    elseif ORDERS[tvb(0, 4):uint()] ~= nil then
        setup(stream, tvb, pinfo, part)
    else
        request(stream, tvb, pinfo, part)
    end
    return tvb:len()
end

local function is_setup(tvb)
    return tvb:len() >= 4 and ORDERS[tvb(0, 4):uint()] ~= nil
end

-- whether a segment begins with a whole setup of this version; the minor version is ignored, and ours is 0
local function is_good_setup(tvb)
    if tvb:len() < 8 or not is_setup(tvb) then return false end
    return tvb(6, 2):uint() == 0 and number_at({ little = ORDERS[tvb(0, 4):uint()] }, tvb(4, 2)) == VERSION
end

local function dissect(tvb, pinfo, tree)
    local stream = stream_of(pinfo)
    stream.little = is_little_in(stream, pinfo.number)
    if not stream.server_port then
        stream.server_port = is_setup(tvb) and pinfo.dst_port or pinfo.match_uint
    end
    local to_server = pinfo.dst_port == stream.server_port
    dissect_tcp_pdus(
        tvb, tree, to_server and 4 or 8,
        function(whole, _, offset) return (to_server and frame_length or message_length)(stream, whole, offset) end,
        function(whole, about, branch) return one(whole, about, branch, to_server) end)
    return tvb:len()
end

audiofile.dissector = dissect

-- a client that sends a good setup first, to whatever port: eight bytes with which nothing else begins. Here the function is
-- called, and not the dissector: called through Wireshark it could not ask for the next segment
audiofile:register_heuristic("tcp", function(tvb, pinfo, tree)
    if not is_good_setup(tvb) then return false end
    pinfo.conversation = audiofile
    dissect(tvb, pinfo, tree)
    return true
end)

local by_port = DissectorTable.get("tcp.port")
local ports = audiofile.prefs.ports
by_port:add(ports, audiofile)

function audiofile.prefs_changed()
    by_port:remove(ports, audiofile)
    ports = audiofile.prefs.ports
    by_port:add(ports, audiofile)
end
