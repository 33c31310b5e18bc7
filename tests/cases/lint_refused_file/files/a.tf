a=
