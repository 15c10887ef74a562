"""What a test of a Kafka client needs of kbroker: a broker that it starts and steers, the protocol, and plain models.

`broker` starts the program and steers it, `settings` writes its settings, and `waiting` waits for what comes of it; `pytest_plugin`
has fixtures for pytest. `protocol` asks the broker every api that it serves, `codes` has Kafka's error codes by their names, `acl_model`
says what bindings allow, and `timeline` draws what a script does. Nothing but Python's own library is needed. All of it has types.
"""
