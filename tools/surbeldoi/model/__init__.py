"""What a scene means: layers, queues, steps, transactions and pictures, and how they change from step to step."""
