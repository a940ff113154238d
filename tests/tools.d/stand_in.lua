-- Stands in for MAME where a test needs no emulation: stand_in.lua JUDGE ROM FRAME.. runs judge.lua over these frames, a GO for each
local function content(name)
  local file = assert(io.open(name, "rb"))
  local bytes = file:read("a")
  file:close()
  return bytes
end

local ram, ended, go, stop
local rom = content(arg[2])
local space = {}
function space:read_range(first, last, _)
  local bytes = first == 0x4000 and ram or rom
  return bytes .. string.rep("\0", last - first + 1 - #bytes)
end
function space:install_write_tap(_, _, _, call) go = call end
manager = { machine = { devices = { [":maincpu"] = { spaces = { program = space } } } } }
function manager.machine:exit() ended = true end
emu = { osd_ticks = os.clock, osd_ticks_per_second = function() return 1 end, time = os.clock }
function emu.add_machine_stop_notifier(call) stop = call end

dofile(arg[1])
for number = 3, #arg do
  if ended then break end
  ram = content(arg[number])
  go()
end
stop()
