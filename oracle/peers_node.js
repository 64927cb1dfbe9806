// peers_node.js FILE ROUNDS: the frames of FILE through node-mqtt-packet's parser, handed over in pieces of 64 KiB as a socket would; ns of processor
// time a frame. oracle/peers runs it.
const fs = require('fs')
const mqtt = require('mqtt-packet')
const bytes = fs.readFileSync(process.argv[2])
const rounds = Number(process.argv[3])
const items = 100000

function pass () {
  let packets = 0
  let sum = 0
  const parser = mqtt.parser({ protocolVersion: 5 })
  parser.on('packet', p => {
    packets += p.cmd === 'subscribe' ? p.subscriptions.length : 1
    if (p.cmd === 'publish') sum += p.topic.length + p.payload.length
  })
  parser.on('error', e => { throw e })
  for (let i = 0; i < bytes.length; i += 65536) parser.parse(bytes.subarray(i, i + 65536))
  if (packets !== items) throw new Error(packets + ' items')
  return sum
}

const times = []
for (let r = 0; r < rounds; r++) {
  const before = process.cpuUsage()
  pass()
  const used = process.cpuUsage(before)
  times.push((used.user + used.system) * 1000 / items)
}
times.sort((a, b) => a - b)
console.log('node-mqtt-packet', process.argv[2].replace(/.*\//, ''), times[times.length >> 1].toFixed(1))
