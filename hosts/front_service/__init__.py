"""The parts of hosts/front: what pharmacy systems call over HTTP and TCP, and the console for people."""
