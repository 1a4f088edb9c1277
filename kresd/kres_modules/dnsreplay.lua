-- dnsreplay: the proved aggressive cache before Knot Resolver's own resolving (docs/LIBRARY.md tells how to load it).
--
-- produce: a client's query that kresd would begin to resolve goes to the cache as it came, and a reply that its records prove is
-- the answer. So policy, views, hints and kresd's own cache, where they stand before, have answered already what is theirs.
-- finish: what kresd has validated of an answer is given to the cache, with its signatures.
local ffi = require('ffi')
local C = ffi.C
ffi.cdef [[
typedef struct { void *at_; bool is_open_; } dnsreplay;
typedef struct { uint64_t stored; uint32_t skipped; } dnsreplay_counts;
int32_t dnsreplay_open(dnsreplay *cache);
int32_t dnsreplay_close(dnsreplay *cache);
int32_t dnsreplay_insert(dnsreplay *cache, const uint8_t *octets, size_t length, uint32_t now, dnsreplay_counts *counts);
int32_t dnsreplay_query(dnsreplay *cache, const uint8_t *octets, size_t length, uint32_t now, uint8_t *reply, size_t room,
                        size_t *written);
size_t dnsreplay_records(dnsreplay *cache);
uint32_t dnsreplay_version(void);
const knot_dname_t *kr_ta_closest(const struct kr_context *, const knot_dname_t *, const uint16_t);
]]
local VERSION, MAX_REPLY, MAX_MESSAGE = 1, 1232, 65535
local OK, NO_MEMORY = 0, -1
local TC, CD, AD = 0x02, 0x10, 0x20 -- in the third octet of a header, and in the fourth
-- The low octet of the header's count; and a reply's OPT record, which stands last, alone, and has no options.
local ARCOUNT, OPT_SIZE = 11, 11
local REFUSALS = {
	[NO_MEMORY] = 'no_memory', [-17] = 'not_a_message', [-18] = 'not_an_answer', [-19] = 'truncated', [-20] = 'not_validated',
	[-21] = 'nothing_stored', [-23] = 'other_rcode',
}
local ENDED = bit.bor(kres.FAIL, kres.DONE)

local M = { layer = {} }
local lib, cache, telling
local reply = ffi.new('uint8_t[?]', MAX_REPLY)
local written = ffi.new('size_t[1]')
local counts = ffi.new('dnsreplay_counts[1]')
local told = { answered = 0, forwarded = 0, stored = 0, stored_records = 0 }
for _, name in pairs(REFUSALS) do told['refused.' .. name] = 0 end

local function count(name, more) told[name] = told[name] + (more or 1) end

-- What was counted, and the number of records held now: `dnsreplay.stats()` at kresd's console.
function M.stats()
	local all = { records = tonumber(lib.dnsreplay_records(cache)) }
	for name, number in pairs(told) do all[name] = number end
	return all
end

-- kresd's own `stats`, where it is loaded, has the same under `dnsreplay.`.
local function tell_stats()
	if not stats then return end
	for name, number in pairs(M.stats()) do stats.set(string.format('dnsreplay.%s %d', name, number)) end
end

function M.init()
	cache = ffi.new('dnsreplay[1]') -- zeroes: closed
end

local function open() assert(lib.dnsreplay_open(cache) == OK, 'dnsreplay: no memory') end

function M.config(conf)
	if lib then return end
	local found = ffi.load((conf or {}).library or 'libdnsreplay.so.1')
	assert(found.dnsreplay_version() == VERSION, 'dnsreplay: another version of the library')
	lib = found
	open()
	telling = event.recurrent(1 * sec, tell_stats)
end

-- Forgets all records: `dnsreplay.clear()` at kresd's console, beside `cache.clear()`. What was counted stays.
function M.clear()
	lib.dnsreplay_close(cache)
	open()
end

function M.deinit()
	if telling then event.cancel(telling) end
	if lib then lib.dnsreplay_close(cache) end
	lib = nil
end

-- ---- queries

-- A client's own query, before anything was resolved for it.
local function is_clients(req, qry)
	return req.qsource.packet ~= nil and qry.parent == nil and req.rplan.resolved.len == 0
end

-- What kresd is told to treat otherwise than by resolving and validating from the root on: names that it asks a server of their own
-- for, or isn't to answer from a cache; that another trust anchor than the root's covers, or none; and addresses that dns64 makes.
local function is_kresds(qry)
	local flags = qry.flags
	if flags.STUB or flags.NO_CACHE or (dns64 and qry.stype == kres.type.AAAA) then return true end
	local anchor = C.kr_ta_closest(kres.context(), qry.sname, qry.stype)
	return anchor == nil or anchor[0] ~= 0
end

-- Whether the reply became the answer. kresd takes an answer with records as made and adds its own OPT record, with what it has to
-- say to this client (padding, NSID), so the reply's is left away. A truncated one is kresd's to make: it knows the way to the client.
local function take_over(req, size)
	local answer = req:ensure_answer()
	if answer == nil or bit.band(reply[2], TC) ~= 0 then return false end
	if reply[ARCOUNT] ~= 0 then
		reply[ARCOUNT] = 0
		size = size - OPT_SIZE
	end
	if size + answer.reserved > answer.max_size then return false end
	if bit.band(reply[3], CD) ~= 0 then reply[3] = bit.band(reply[3], bit.bnot(AD)) end -- kresd vouches for nothing that isn't checked
	ffi.copy(answer.wire, reply, size)
	answer.size = size
	assert(answer:parse())
	return true
end

M.layer.produce = function (state, req)
	local qry = req:current()
	if not lib or bit.band(state, ENDED) ~= 0 or not is_clients(req, qry) or is_kresds(qry) then return state end
	local query = req.qsource.packet
	local code = lib.dnsreplay_query(cache, query.wire, query.size, os.time(), reply, MAX_REPLY, written)
	if code == OK and take_over(req, tonumber(written[0])) then
		count('answered')
		req:vars().by_dnsreplay = true
		qry.flags.RESOLVED = true
		return kres.DONE
	end
	count('forwarded')
	return state
end

-- ---- answers

-- Puts what kresd ranks as validated into a section of the message; false where it has no room.
local function put_secure(message, section, selected)
	assert(message:begin(section))
	for i = 0, tonumber(selected.len) - 1 do
		local entry = selected.at[i]
		if bit.band(entry.rank, kres.rank.SECURE) ~= 0 and not message:put_rr(entry.rr) then return false end
	end
	return true
end

-- The validated part of an answer as a message of its own, with the client's question; none where it is too large.
local function validated(req)
	local query, message = req:initial(), kres.packet(MAX_MESSAGE)
	message:question(query.sname, query.sclass, query.stype)
	message:qr(true)
	message:rd(true)
	message:ra(true)
	message:ad(true)
	message:rcode(req.answer:rcode())
	local fits = put_secure(message, kres.section.ANSWER, req.answ_selected)
		and put_secure(message, kres.section.AUTHORITY, req.auth_selected)
	return fits and message or nil
end

local function has_secure(selected)
	for i = 0, tonumber(selected.len) - 1 do
		if bit.band(selected.at[i].rank, kres.rank.SECURE) ~= 0 then return true end
	end
	return false
end

M.layer.finish = function (state, req)
	if not lib or bit.band(state, kres.DONE) == 0 or req.qsource.packet == nil or req.answer == nil then return state end
	if req:vars().by_dnsreplay or not (has_secure(req.answ_selected) or has_secure(req.auth_selected)) then return state end
	local message = validated(req)
	if message == nil then return state end
	local code = lib.dnsreplay_insert(cache, message.wire, message.size, os.time(), counts)
	if code == OK then
		count('stored')
		count('stored_records', tonumber(counts[0].stored))
	else
		count('refused.' .. REFUSALS[code])
	end
	return state
end

return M
