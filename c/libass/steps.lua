-- For clients.sh: mpv pauses, goes so many subtitles on, shows that frame, and ends.
local seeks = 0
mp.register_event("file-loaded", function() mp.set_property("pause", "yes") end)
mp.register_event("playback-restart", function()
    seeks = seeks + 1
    if seeks == 1 then
        mp.add_timeout(0.2, function() mp.commandv("sub-seek", os.getenv("STEPS")) end)
    else
        mp.add_timeout(0.2, function() mp.commandv("quit") end)
    end
end)
