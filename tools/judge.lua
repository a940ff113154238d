-- Judges each display list of a running MAME, by one `dvgcheck` beside it: MAME loads this file, as docs/TOOLS.md says. It is unproved.
-- It reads vector RAM when the processor says GO, which is when the list is complete, and goes on when the answer is there. The
-- environment says how it judges:
--   JUDGE_PROGRAM   the program; the default is `dvgcheck`, which is then on the PATH
--   JUDGE_OPTIONS   options of `frames` for it; the default is `--board`
--   JUDGE_ROM       where the vector ROM lies, as --rom has it; the default is `800/BFF`
--   JUDGE_RECIPE    a recipe: the first frame that does not belong to it ends MAME
--   JUDGE_FOLDER    a folder for its files; the default is the current one
local GO, RAM, RAM_END = 0x3000, 0x4000, 0x47FF
local RECORD = RAM_END - RAM + 1
local JSRL, JMPL = 0xC, 0xE
local program = os.getenv("JUDGE_PROGRAM") or "dvgcheck"
local options = os.getenv("JUDGE_OPTIONS") or "--board"
local map = os.getenv("JUDGE_ROM") or "800/BFF"
local recipe = os.getenv("JUDGE_RECIPE")
local folder = os.getenv("JUDGE_FOLDER") or "."
local here = debug.getinfo(1, "S").source:match("^@(.*/)") or "./"
local space = manager.machine.devices[":maincpu"].spaces["program"]

local function say(form, ...)
  print("judge.lua: " .. string.format(form, ...))
  io.stdout:flush()
end

local function file(name) return folder .. "/judge-" .. name end

local function write(name, bytes)
  local out = assert(io.open(name, "wb"))
  assert(out:write(bytes))
  assert(out:close())
end

-- ---- lists

local function hex(address) return string.format("%03X", address) end

-- the opcode and the address of the frame's word here; nothing past its end
local function instruction(frame, at)
  if 2 * at + 2 > #frame then return end
  local word = string.unpack("<I2", frame, 2 * at + 1)
  return word >> 12, hex(word & 0xFFF)
end

-- where the list begins: a game with two of them changes the jump at word 000
local given_start = options:match("%-%-start[= ]+(%S+)")
local function start_of(frame)
  local opcode, target = instruction(frame, 0)
  return given_start or opcode == JMPL and target or "000"
end

-- the bytes of the ROM, by the processor's addresses of its first and last word
local function rom_bytes()
  local first, last = map:match("^(%x%x%x)/(%x%x%x)$")
  assert(first, "bad map: " .. map)
  return space:read_range(RAM + 2 * tonumber(first, 16), RAM + 2 * tonumber(last, 16) + 1, 8)
end

-- ---- the program

local function quoted(word) return "'" .. word:gsub("'", "'\\''") .. "'" end

-- a command of the program over the ROM, and then these files
local function command_line(command, settings, ...)
  local words = { quoted(program), command, settings, "--rom", quoted(map), "--", quoted(file("rom.bin")) }
  for _, name in ipairs({ ... }) do words[#words + 1] = quoted(name) end
  return table.concat(words, " ")
end

-- what a command says
local function said_by(line)
  local pipe = assert(io.popen(line .. " 2>&1"))
  local said = pipe:read("a")
  pipe:close()
  return said
end

-- A process that takes frames one behind another, and answers each by a line, which comes back by a FIFO. The shell around it reads on
-- where the program has ended, so that a frame too many ends the answers, and not MAME.
local function start(name, line)
  local fifo = file(name)
  os.remove(fifo)
  assert(os.execute("mkfifo " .. quoted(fifo)), "no FIFO: " .. fifo)
  local frames = assert(io.popen("{ " .. line .. " >" .. quoted(fifo) .. " 2>&1; exec cat >/dev/null; }", "w"))
  local answers = assert(io.open(fifo, "rb"))
  os.remove(fifo)
  return { frames = frames, answers = answers }
end

local function ask(process, frame)
  process.frames:write(frame)
  process.frames:flush()
end

-- The answer is what follows the last colon and space of the line.
local function answer_of(process, ...)
  local said = process.answers:read("l") or "the program has ended"
  local answer = said:match("^.*: (.*)$") or ""
  for _, form in ipairs({ ... }) do
    if answer:match(form) then return answer end
  end
  error("no answer: " .. said, 0)
end

local function finish(process)
  process.frames:close()
  process.answers:close()
end

-- the group of a refusal: its number, with the shape that the refused item calls, or in which it is
local function group_of(answer, frame)
  local number, at, shape = answer:match("^refused %d+"), answer:match("frame at (%x+)$"), answer:match(" shape (%x+)/")
  if shape then return number .. " in shape " .. shape end
  if not at then return number end
  local opcode, target = instruction(frame, tonumber(at, 16))
  return opcode == JSRL and number .. " by the call of " .. target or number
end

-- ---- runs of refused frames

local judged, accepted, most_words, deepest, spent = 0, 0, 0, 0, 0
local groups = {}   -- in the order of their first frames; a group's run, while it goes on, is its `run`
local last = {}     -- the group of the last frame of each start; none where it was accepted

-- A run goes on while it is the last answer of some start.
local function goes_on(group)
  for _, other in pairs(last) do
    if other == group then return true end
  end
  return false
end

local function tell_run(group)
  local run = group.run
  group.run = nil
  local span = run.first == run.last and "frame " .. run.first or string.format("frames %d to %d", run.first, run.last)
  local starts = (#run.starts == 1 and "start " or "starts ") .. table.concat(run.starts, " ")
  say("%s: %s: %d in all, %s", span, group.name, run.count, starts)
end

-- the first frame of a group is kept, and told with the reason
local function first_of(name, answer, frame)
  local group = { name = name, count = 0, kept = file(judged .. ".frame") }
  groups[#groups + 1], groups[name] = group, group
  write(group.kept, frame)
  say("frame %d: %s, kept as %s", judged, answer, group.kept)
  local why = said_by(command_line("explain frames", options, group.kept)):match("\nwhy: ([^\n]*)")
  if why then say("frame %d: why: %s", judged, why) end
  return group
end

local function count_in(group, start)
  local run = group.run or { first = judged, count = 0, starts = {} }
  group.run, group.count = run, group.count + 1
  run.last, run.count = judged, run.count + 1
  if not run.starts[start] then
    run.starts[start], run.starts[#run.starts + 1] = true, start
  end
end

-- a frame from this start that was refused, so that its group has this name; or without one, that was accepted
local function note(start, name, answer, frame)
  local before = last[start]
  last[start] = name and groups[name]
  if before and before ~= last[start] and not goes_on(before) then tell_run(before) end
  if not name then return end
  last[start] = last[start] or first_of(name, answer, frame)
  count_in(last[start], start)
end

-- ---- a frame outside the recipe

-- what could have stood at the frame's word, and its picture, are files beside the frame
local function keep_outside(answer, frame)
  local kept, account, picture = file(judged .. ".frame"), file(judged .. ".txt"), file(judged .. ".svg")
  write(kept, frame)
  say("frame %d: %s of the recipe, kept as %s", judged, answer, kept)
  local said = said_by(command_line("explain belongs", "", recipe, kept))
  write(account, said)
  for line in said:gmatch("[^\n]+") do
    if line:match("^item: ") or line:match("^holds: ") or line:match("^instruction: ") or line:match("^could stand: ") then
      say("frame %d: %s", judged, line)
    end
  end
  local words = { quoted(here .. "picture"), "frame --board --refused", answer:match("%x+$"), "--rom", quoted(map), "-o", quoted(picture),
    quoted(file("rom.bin")), quoted(kept) }
  local failed = said_by(table.concat(words, " "))
  say("frame %d: %s", judged, failed == "" and "its picture is " .. picture or "no picture: " .. failed:gsub("\n.*", ""))
end

-- ---- at each GO, and at the end

local judge, member     -- the processes of `frames` and `belongs`
local first_time, last_time

local function begin()
  write(file("rom.bin"), rom_bytes())
  judge = start("answers", command_line("frames", options .. " --records " .. RECORD, "-"))
  if recipe then member = start("members", command_line("belongs", "--records " .. RECORD, recipe, "-")) end
end

local function judge_frame(frame)
  ask(judge, frame)
  if member then ask(member, frame) end
  local form = "^accepted shapes=%d+ words=%d+ depth=%d+"
  local answer = answer_of(judge, form .. "$", form .. " clocks<?=%d+$", "^refused %d.*$")
  local belongs = not member and "belongs" or answer_of(member, "^belongs$", "^outside at %x+$")
  judged = judged + 1
  local words, depth = answer:match("words=(%d+) depth=(%d+)")
  if words then
    accepted = accepted + 1
    most_words, deepest = math.max(most_words, tonumber(words)), math.max(deepest, tonumber(depth))
    if judged == 1 then say("frame 1: %s", answer) end
  end
  note(start_of(frame), not words and group_of(answer, frame) or nil, answer, frame)
  if belongs ~= "belongs" then
    keep_outside(belongs, frame)
    return false
  end
  return true
end

local ended = false
local function stop()
  ended = true
  manager.machine:exit()
end

local function guarded(call)
  if ended then return end
  local well, why = pcall(call)
  if well then return end
  say("stopped: %s", why)
  stop()
end

local function at_each_go()
  local begun = emu.osd_ticks()
  local goes_on = judge_frame(space:read_range(RAM, RAM_END, 8))
  last_time = { clock = emu.osd_ticks(), emulated = emu.time() }
  first_time = first_time or last_time
  spent = spent + last_time.clock - begun
  if not goes_on then stop() end
end

-- what a frame cost, and how fast they came, from the first to the last
local function tell_speed()
  local second = emu.osd_ticks_per_second()
  local seconds = (last_time.clock - first_time.clock) / second
  say("%.2f ms a frame; %.0f frames a second, %.1f times real speed", 1000 * spent / second / judged, (judged - 1) / seconds,
    (last_time.emulated - first_time.emulated) / seconds)
end

local function sum_up()
  for _, group in ipairs(groups) do
    if group.run then tell_run(group) end
  end
  say("%d frames judged: %d accepted, %d refused; at most %d words, depth %d", judged, accepted, judged - accepted, most_words,
    deepest)
  for _, group in ipairs(groups) do say("%s: %d in all, the first kept as %s", group.name, group.count, group.kept) end
  if judged > 1 then tell_speed() end
  for _, process in pairs({ judge, member }) do finish(process) end
end

guarded(begin)
-- what nothing holds is taken away, so both are global; MAME has had the first way to be told of its end since 0.254
at_end = (emu.add_machine_stop_notifier or emu.register_stop)(sum_up)
at_go = space:install_write_tap(GO, GO, "GO", function() guarded(at_each_go) end)
