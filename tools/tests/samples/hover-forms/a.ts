aa bb cc dd
