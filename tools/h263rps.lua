-- A dissector for Wireshark and tshark of the packets of h263rps: the payload header of RFC 4629, the picture header
-- with the fields of Annex N, the slice's header, and back-channel messages, in pictures, in RTCP (RFC 4585, 6.3.3) and
-- by themselves. docs/FORMATS.md has every field.
--
--     tshark -X lua_script:tools/h263rps.lua -r packets.pcap -V
--     wireshark -X lua_script:tools/h263rps.lua packets.pcap
--
-- Or copy it into Wireshark's folder of Lua plugins (Help, About, Folders). By the preferences of the protocol H263RPS
-- pictures are RTP of payload type 96 on port 5004, and messages are on port 5005, as tools/pcap_of_log writes them; 0
-- leaves a port alone. What SDP names H263-2000, and RTCP on any port, is dissected, too. Filters: h263rps.tr == 7,
-- h263rps.message.kind == 3, h263rps.wrong.

local picture = Proto("h263rps", "H.263 with acknowledged reference pictures")

local FORMATS = { [1] = "sub-QCIF, 128 x 96", [2] = "QCIF, 176 x 144", [3] = "CIF, 352 x 288" }
local MBA_BITS = { [1] = 6, [2] = 7, [3] = 9 }
local KINDS = { [0] = "I, coded by itself", [1] = "P, predicted" }
local CLOCKS = { [0] = "standard, 256 numbers", [1] = "custom, 1,024 numbers" }
local CHANNELS = {
    [4] = "no messages wanted", [5] = "acknowledgements", [6] = "negative acknowledgements", [7] = "both",
}
local SAYS = { [2] = "NACK", [3] = "ACK" }

local fields = {
    rr = ProtoField.uint8("h263rps.rr", "RR, reserved"),
    p = ProtoField.uint8("h263rps.p", "P, a start code's two zero bytes are left out"),
    v = ProtoField.uint8("h263rps.v", "V, redundancy coding"),
    plen = ProtoField.uint8("h263rps.plen", "PLEN, bytes of the extra picture header"),
    pebit = ProtoField.uint8("h263rps.pebit", "PEBIT, bits left out of its last byte"),
    tr = ProtoField.uint16("h263rps.tr", "TR, temporal reference"),
    format = ProtoField.uint8("h263rps.format", "Source format", base.DEC, FORMATS),
    clock = ProtoField.uint8("h263rps.clock", "Custom PCF, picture clock", base.DEC, CLOCKS),
    modes = ProtoField.uint16("h263rps.modes", "Annexes D, E, F, I, J, K, N, R, S, T", base.HEX),
    kind = ProtoField.uint8("h263rps.kind", "Picture type", base.DEC, KINDS),
    rtype = ProtoField.uint8("h263rps.rtype", "RTYPE, rounding"),
    cpm = ProtoField.uint8("h263rps.cpm", "CPM"),
    cpcfc = ProtoField.uint8("h263rps.cpcfc", "CPCFC, the custom clock", base.HEX),
    etr = ProtoField.uint8("h263rps.etr", "ETR, high bits of the temporal reference"),
    sss = ProtoField.uint8("h263rps.sss", "SSS, slice structure"),
    rpsmf = ProtoField.uint8("h263rps.rpsmf", "RPSMF, back channel", base.DEC, CHANNELS),
    trpi = ProtoField.uint8("h263rps.trpi", "TRPI, a reference is named"),
    trp = ProtoField.uint16("h263rps.trp", "TRP, the reference's temporal reference"),
    bci = ProtoField.string("h263rps.bci", "BCI"),
    pquant = ProtoField.uint8("h263rps.pquant", "PQUANT, the picture's quantiser"),
    pei = ProtoField.uint8("h263rps.pei", "PEI"),
    mba = ProtoField.uint16("h263rps.mba", "MBA, first macroblock of the slice"),
    squant = ProtoField.uint8("h263rps.squant", "SQUANT, the slice's quantiser"),
    gfid = ProtoField.uint8("h263rps.gfid", "GFID"),
    tri = ProtoField.uint8("h263rps.tri", "TRI"),
    slice_trpi = ProtoField.uint8("h263rps.slice.trpi", "TRPI, a reference is named"),
    slice_trp = ProtoField.uint16("h263rps.slice.trp", "TRP, the reference's temporal reference"),
    macroblocks = ProtoField.uint32("h263rps.macroblocks", "Bits of macroblocks, padding included"),
    message = ProtoField.bytes("h263rps.message", "Back-channel message"),
    bt = ProtoField.uint8("h263rps.message.kind", "BT, kind", base.DEC, SAYS),
    urf = ProtoField.uint8("h263rps.message.urf", "URF, flags follow"),
    message_tr = ProtoField.uint16("h263rps.message.tr", "TR, the picture that it is about"),
    message_rtr = ProtoField.uint16("h263rps.message.rtr", "RTR, requested temporal reference"),
    flags = ProtoField.string("h263rps.message.complete", "Complete of the 14 pictures after TR"),
}
picture.fields = {}
for _, field in pairs(fields) do
    table.insert(picture.fields, field)
end
local wrong = ProtoExpert.new("h263rps.wrong", "Not of the profile", expert.group.MALFORMED, expert.severity.WARN)
picture.experts = { wrong }

picture.prefs.payload_type = Pref.uint("RTP payload type", 96, "of the pictures (0: by SDP alone)")
picture.prefs.pictures = Pref.uint("Port of pictures", 5004, "UDP, of RTP (0: none)")
picture.prefs.messages = Pref.uint("Port of messages", 5005, "UDP, of RTCP or of bare messages (0: none)")

-- A place in bits. `take` reads the next field and shows it. Where the bits end inside one that is said, and what is
-- left isn't read: `stop` leaves the packet.
local Reader = {}
Reader.__index = Reader

local function reader(tvb, first, last, tree)
    return setmetatable({ tvb = tvb, at = first, last = last, tree = tree }, Reader)
end

function Reader:said(text)
    self.tree:add_proto_expert_info(wrong, text)
end

function Reader:stop(text)
    self:said(text)
    error(nil, 0)
end

function Reader:covered(count)
    local from = math.floor(self.at / 8)
    return self.tvb(from, math.floor((self.at + count - 1) / 8) - from + 1)
end

function Reader:peek(count)
    if self.at + count > self.last then
        self:stop("the bits end inside a field")
    end
    return self:covered(count):bitfield(self.at % 8, count)
end

function Reader:take(count, field, shown)
    local value, range = self:peek(count), self:covered(count)
    if field then
        self.tree:add(field, range, shown or value)
    end
    self.at = self.at + count
    return value, range
end

-- A field that has one value in this profile.
function Reader:must(count, value, name)
    local got = self:take(count)
    if got ~= value then
        self:said(name .. " is " .. got .. ", and not " .. value)
    end
end

-- A branch of the tree for what begins here, a whole byte.
function Reader:branch(tree, name)
    if self.at >= self.last then
        self:stop("the bits end before the " .. name)
    end
    self.tree = tree:add(picture, self.tvb(self.at / 8), name)
end

-- A message of 24 bits, or of 40 with its flags. Its words for the line of the packet.
local function take_message(bits)
    local branch = bits.tree
    local long = bits:peek(3) % 2 == 1
    local count = long and 40 or 24
    bits:peek(count)
    bits.tree = branch:add(fields.message, bits:covered(count))
    local kind = bits:take(2, fields.bt)
    bits:take(1, fields.urf)
    local tr = bits:take(10, fields.message_tr)
    bits:must(1, 1, "the marker")
    local rtr = bits:take(10, fields.message_rtr)
    if kind < 2 then
        bits:said("neither ACK nor NACK")
    elseif kind == 3 and tr ~= rtr then
        bits:said("an acknowledgement of two pictures")
    end
    if long then
        local covered, text = bits:covered(16), ""
        for _ = 1, 2 do
            bits:must(1, 1, "the marker of the flags")
            for _ = 1, 7 do
                text = text .. bits:take(1)
            end
        end
        bits.tree:add(fields.flags, covered, text)
    end
    local words = (SAYS[kind] or "message") .. " " .. tr
    bits.tree:append_text(": " .. words .. (kind == 2 and ", wants " .. rtr or ""))
    bits.tree = branch
    return words
end

-- The picture header from its start code's 17th bit on. What a slice needs of it.
local function take_picture(bits)
    local head = { words = {} }
    bits:must(6, 0x20, "the rest of the start code")
    local low, first = bits:take(8)
    bits:must(2, 2, "PTYPE 1, 2")
    bits:take(3)
    bits:must(3, 7, "PTYPE 6 to 8 (extended)")
    bits:must(3, 1, "UFEP")
    head.format = bits:take(3, fields.format)
    local custom = bits:take(1, fields.clock)
    if bits:take(10, fields.modes) ~= 0x18 then
        bits:said("not Annexes K and N alone")
    end
    bits:must(4, 8, "the tail of OPPTYPE")
    head.kind = bits:take(3, fields.kind)
    bits:must(2, 0, "Annexes P and Q")
    bits:take(1, fields.rtype)
    bits:must(3, 1, "the tail of MPPTYPE")
    bits:take(1, fields.cpm)
    local high = 0
    if custom == 1 then
        bits:take(8, fields.cpcfc)
        high = bits:take(2, fields.etr)
    end
    head.tr = high * 256 + low
    bits.tree:add(fields.tr, first, head.tr)
    bits:take(2, fields.sss)
    bits:take(3, fields.rpsmf)
    if bits:take(1, fields.trpi) == 1 then
        head.trp = bits:take(10, fields.trp)
    end
    while bits:peek(1) == 1 do
        bits:take(1, fields.bci, "1, a message follows")
        table.insert(head.words, take_message(bits))
    end
    bits:must(2, 1, "BCI")
    bits:take(5, fields.pquant)
    while bits:take(1, fields.pei) == 1 do
        bits:take(8)
    end
    return head
end

local function take_slice(bits, head, later)
    if later then
        bits:must(1, 1, "the start code's last bit")
    end
    bits:must(1, 1, "SEPB1")
    local first = bits:take(MBA_BITS[head.format] or 7, fields.mba)
    if later then
        bits:take(5, fields.squant)
    end
    bits:must(1, 1, "SEPB3")
    if later then
        bits:take(2, fields.gfid)
        bits:take(1, fields.tri)
        if bits:take(1, fields.slice_trpi) == 1 and bits:take(10, fields.slice_trp) ~= head.trp then
            bits:said("another reference than its picture's")
        end
        bits:must(2, 1, "BCI")
    end
    local left = bits.last - bits.at
    if left > 0 then
        bits.tree:add(fields.macroblocks, bits:covered(left), left)
    end
    return first
end

-- The parts of a packet, each in a branch of its own: the payload header, the picture header, the slice.
local function take_packet(tvb, tree, info)
    local all = tvb:len() * 8
    local bits = reader(tvb, 0, all, tree)
    bits:branch(tree, "payload header, RFC 4629")
    bits:take(5, fields.rr)
    if bits:take(1, fields.p) ~= 1 then
        bits:stop("a packet that follows on from the one before")
    end
    local redundant = bits:take(1, fields.v)
    local length = bits:take(6, fields.plen)
    local unused = bits:take(3, fields.pebit)
    bits.tree:set_len(2)
    if redundant == 1 then
        bits:take(8)
    end
    local later = length > 0
    local data = bits.at + 8 * length
    bits:branch(tree, later and "extra picture header" or "picture header")
    local from = bits.at
    if later then
        bits.last = math.min(all, data - unused)
    end
    local head = take_picture(bits)
    bits.tree:set_len(math.ceil(bits.at / 8) - from / 8)
    if later then
        if bits.at ~= bits.last then
            bits:said("bits left over in the extra picture header")
        end
        bits.at, bits.last = data, all
    end
    if bits.at >= all then
        bits:stop("the bits end before the slice")
    end
    bits.tree = tree:add(picture, tvb(math.floor(bits.at / 8)), "slice")
    local first = take_slice(bits, head, later)
    local kind = head.kind == 0 and "intra" or "from " .. (head.trp or "none")
    local said = #head.words > 0 and ", says " .. table.concat(head.words, ", ") or ""
    info(string.format("picture %d, %s, macroblocks from %d%s", head.tr, kind, first, said))
end

function picture.dissector(tvb, pinfo, tree)
    if tvb:len() == 0 then
        return 0
    end
    local branch = tree:add(picture, tvb())
    pinfo.cols.protocol = "H263RPS"
    local fine, fault = pcall(take_packet, tvb, branch, function(text)
        branch:append_text(": " .. text)
        pinfo.cols.info = text
    end)
    if not fine and fault then
        error(fault, 0)
    end
    return tvb:len()
end

-- A message by itself.
local function dissect_message(tvb, pinfo, tree)
    local branch = tree:add(picture, tvb(), "H.263 back-channel message")
    local fine, words = pcall(take_message, reader(tvb, 0, 8 * tvb:len(), branch))
    if fine then
        pinfo.cols.protocol = "H263RPS"
        pinfo.cols.info = words
    elseif words then
        error(words, 0)
    end
end

-- The FCI of a reference picture selection indication: the count of its padding's bits, the payload type, the message.
local indication = Proto("h263rps_rpsi", "H.263 reference picture selection indication")
function indication.dissector(tvb, pinfo, tree)
    local count = tvb:len() < 2 and 0 or tvb:len() - 2 - math.floor(tvb(0, 1):uint() / 8)
    if count ~= 3 and count ~= 5 then
        return 0
    end
    dissect_message(tvb(2, count):tvb(), pinfo, tree)
    return tvb:len()
end
DissectorTable.get("rtcp.psfb.fmt"):add(3, indication)

-- The port of messages: RTCP, or a message with nothing around it.
local answers = Proto("h263rps_messages", "H.263 back-channel messages")
function answers.dissector(tvb, pinfo, tree)
    if tvb:len() == 3 or tvb:len() == 5 then
        dissect_message(tvb, pinfo, tree)
        return tvb:len()
    end
    local rtcp = Dissector.get("rtcp")
    if not pcall(rtcp.call, rtcp, tvb, pinfo, tree) then
        tree:add(picture, tvb(), "RTCP that is cut"):add_proto_expert_info(wrong, "no message, and no whole RTCP")
    end
    return tvb:len()
end

-- What the preferences name. `DissectorTable:remove` forgets what they named before.
local named = {}
local function name_all()
    for _, it in ipairs(named) do
        DissectorTable.get(it[1]):remove(it[2], it[3])
    end
    named = {}
    local function add(name, value, dissector)
        if value ~= 0 then
            DissectorTable.get(name):add(value, dissector)
            table.insert(named, { name, value, dissector })
        end
    end
    add("rtp.pt", picture.prefs.payload_type, picture)
    add("udp.port", picture.prefs.pictures, Dissector.get("rtp"))
    add("udp.port", picture.prefs.messages, answers)
end
picture.prefs_changed = name_all
name_all()
DissectorTable.get("rtp_dyn_payload_type"):add("H263-2000", picture)
