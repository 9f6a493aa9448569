"""The grader `sdk/grade`, file by file: what is drawn, what is taken of a submission, how each kind of lab is graded, and the reports."""
