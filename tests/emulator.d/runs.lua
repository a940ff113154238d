-- Runs display lists on the DVG of MAME's machine `asteroid`. MAME itself loads this file, as emulator.py says. The environment
-- names two files. Each line of EMULATOR_RUNS says what to do:
--   rom HEX                      these are the bytes of the vector ROM, words 800 to BFF
--   run X Y SCALE POINTER PLACES MOST HEX
--                                before GO these are the counters, the global scale, the stack pointer, the four stored places, and the
--                                bytes of vector RAM; MOST is how many instructions there are at most
--   time X Y SCALE POINTER PLACES CLOCKS HEX
--                                the same for a run that is to halt so many clocks after GO
-- EMULATOR_SEEN gets a line for each run, and one line `end` if all went well:
--   ITEM.. / POINT..             what the registers were before each instruction, and after the last; what the picture has
--   LATE                         of a run that is timed: how many clocks after that its halt came, -9 to 9. The first stands for all that is
--                                earlier, too, and the last for all that is later
-- An ITEM is ADDRESS,X,Y,POINTER,PLACES,SCALE,OPCODE,INTENSITY,WORDS,POINTS. The opcode is that of the instruction to come, the
-- intensity that of the last draw, WORDS how many words were fetched so far, and POINTS how many points the picture has so far. A
-- POINT is X,Y,INTENSITY: the beam went there, with this intensity on its way. PLACES are four numbers.
local device = manager.machine.devices[":dvg"]
local space = manager.machine.devices[":maincpu"].spaces["program"]
local region = manager.machine.memory.regions[":maincpu"]
local registers = {}
for name, index in pairs(device.items) do registers[name:match("m_(.*)") or name] = emu.item(index) end

local function get(name) return registers[name]:read(0) end
local function set(name, value) registers[name]:write(0, value) end

-- The picture is no register: it is read from the memory of MAME's process. There the number of points comes first, then room for
-- 10,000 points of seven numbers each, and then the registers PC, SP, DVX, DVY and the stack, so it is found by what these hold.
local POINT_BYTES, MOST_POINTS = 28, 10000
local memory = io.open("/proc/self/mem", "rb")
memory:setvbuf("no")
local number_at

local function bytes_at(address, count)
  memory:seek("set", address)
  return memory:read(count)
end

-- the address of DVX, if it is in this part of the memory: the marks may also stand where a copy of them is
local function dvx_within(first, last, marks)
  local bytes, from = bytes_at(first, last - first), 1
  while bytes do
    local found = bytes:find(marks, from, true)
    if not found then return end
    set("dvx", 0x321)
    local moved = string.unpack("<I2", bytes_at(first + found - 1, 2)) == 0x321
    set("dvx", 0x712)
    if moved then return first + found - 1 end
    from = found + 1
  end
end

local function find_picture()
  set("dvx", 0x712)
  set("dvy", 0x634)
  for place = 0, 3 do registers.stack:write(place, 0xA1B1 + 0x101 * place) end
  local marks = string.pack("<I2I2I2I2I2I2", 0x712, 0x634, 0xA1B1, 0xA2B2, 0xA3B3, 0xA4B4)
  for line in io.lines("/proc/self/maps") do
    local first, last, name = line:match("^(%x+)%-(%x+) rw%S+ %S+ %S+ %S+%s*(.*)$")
    if first and (name == "" or name == "[heap]") then
      local dvx = dvx_within(tonumber(first, 16), tonumber(last, 16), marks)
      if dvx then return dvx - 4 - MOST_POINTS * POINT_BYTES - 4 end
    end
  end
  error("the picture was not found")
end

local function point_count() return (string.unpack("<i4", bytes_at(number_at, 4))) end

local function points()
  local count, list = point_count(), {}
  assert(count <= MOST_POINTS - 100, "there may be more points than the picture has room for")
  local bytes = count > 0 and bytes_at(number_at + 4, count * POINT_BYTES)
  for index = 1, count do
    -- in 1/65536, from the left of the picture's frame and from its top
    local x, y, _, intensity = string.unpack("<i4i4i4i4", bytes, (index - 1) * POINT_BYTES + 1)
    list[index] = string.format("%d,%d,%d", x // 65536 - 10, 906 - y // 65536, intensity // 16)
  end
  return table.concat(list, " ")
end

local words, items = 0, {}

local function note_item(opcode)
  local stack = registers.stack
  items[#items + 1] = string.format("%d,%d,%d,%d,%d,%d,%d,%d,%d,%d,%d,%d,%d", get("pc"), get("xpos"), get("ypos"), get("sp"),
    stack:read(0), stack:read(1), stack:read(2), stack:read(3), get("scale"), opcode, get("intensity"), words, point_count())
end

-- States D and F read the high bytes of an instruction's first and second word. The processor's own program is elsewhere. Before
-- an instruction too many does anything, or one at FFE or FFF, past which MAME's PC would go on, the generator is halted.
local running, most = false, 0
local function note_read(_, value)
  if not running then return end
  local state = get("state_latch") & 15
  if state ~= 13 and state ~= 15 then return end
  if state == 13 then
    note_item(value >> 4 & 15)
    if #items > most or get("pc") >= 0xFFE then
      running = false
      set("halt", 1)
      return
    end
  end
  words = words + 1
end
reads = space:install_read_tap(0x4000, 0x5FFF, "the generator's reads", note_read) -- a tap that nothing holds is taken away

local function each_byte(hex, put)
  local index = 0
  for byte in hex:gmatch("%x%x") do
    put(index, tonumber(byte, 16))
    index = index + 1
  end
end

-- The processor sees `sync_halt`, which comes after `halt`, when the time of the last draw is over.
local function wait_for_halt()
  local left = 20000
  repeat
    emu.wait(0.0009)
    left = left - 1
    assert(left > 0, "a list did not halt")
  until get("sync_halt") == 1 and get("halt") == 1
end

-- These are the registers and vector RAM, and GO.
local function go(x, y, scale, pointer, places, hex)
  each_byte(hex, function(index, byte) space:write_u8(0x4000 + index, byte) end)
  set("xpos", tonumber(x))
  set("ypos", tonumber(y))
  set("scale", tonumber(scale))
  set("sp", tonumber(pointer))
  local place = 0
  for address in places:gmatch("%d+") do
    registers.stack:write(place, tonumber(address))
    place = place + 1
  end
  space:write_u8(0x3000, 0)
end

local function run(x, y, scale, pointer, places, instructions, hex)
  words, items, running, most = 0, {}, true, tonumber(instructions)
  go(x, y, scale, pointer, places, hex)
  wait_for_halt()
  if running then note_item(11) end -- after the last: no instruction comes
  running = false
  return table.concat(items, " ") .. " / " .. points() .. "\n"
end

-- A clock in seconds; and how many clocks before and after the one at which a halt is to come it is looked for.
local CLOCK, NEAR = 8 / 12096000, 9

-- How many clocks later than so many after GO, which was at `begun`, the processor sees the halt. It is looked for half a clock past
-- each clock, so that it doesn't matter how times are rounded. Between two looks the emulator's time goes on by just one clock.
local function lateness(begun, clocks)
  for late = -NEAR, NEAR - 1 do
    local left = begun + (clocks + late + 0.5) * CLOCK - manager.machine.time:as_double()
    if left > 0 then emu.wait(left) end
    if get("sync_halt") == 1 then return late end
  end
  return NEAR
end

local function time(x, y, scale, pointer, places, clocks, hex)
  local begun = manager.machine.time:as_double()
  go(x, y, scale, pointer, places, hex)
  local late = lateness(begun, tonumber(clocks))
  wait_for_halt()
  return late .. "\n"
end

local function do_all()
  emu.wait(0.05)
  number_at = find_picture()
  local seen = assert(io.open(os.getenv("EMULATOR_SEEN"), "w"))
  for line in io.lines(os.getenv("EMULATOR_RUNS")) do
    local what, rest = line:match("^(%S+) (.*)$")
    if what == "rom" then
      each_byte(rest, function(index, byte) region:write_u8(0x5000 + index, byte) end)
    else
      local go_on = what == "time" and time or run
      seen:write(go_on(rest:match("^(%S+) (%S+) (%S+) (%S+) (%S+) (%S+) (%S+)$")))
    end
  end
  seen:write("end\n")
  seen:close()
end

coroutine.wrap(function()
  local well, why = pcall(do_all)
  if not well then print("runs.lua: " .. why) end
  manager.machine:exit()
end)()
