"""What tests share: plain readings of the formats, random events, and what runs program, prompt and pages."""
