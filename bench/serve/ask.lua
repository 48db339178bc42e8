-- Requests the targets in a file, one per line, in turn. Arguments: the file, the method, the length of the body, the host.
local targets, bodies, at = {}, nil, 0
local method, host

function init(words)
    method, host = words[2], words[4]
    if tonumber(words[3]) > 0 then
        bodies = string.rep("b", tonumber(words[3]))
    end
    for line in io.lines(words[1]) do
        targets[#targets + 1] = line
    end
end

function request()
    at = at % #targets + 1
    return wrk.format(method, targets[at], { ["Host"] = host }, bodies)
end

function done(summary, latency, requests)
    io.write(string.format("told %d %d %d %d %d\n", summary.requests, summary.duration, summary.errors.status,
        summary.errors.connect + summary.errors.write + summary.errors.timeout, latency:percentile(99)))
end
