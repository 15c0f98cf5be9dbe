"""Why a line of a command file is of no form, in words. `forms.ere` has the forms, for the launchers too."""
