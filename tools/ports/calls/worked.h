void worked_cases(void);
