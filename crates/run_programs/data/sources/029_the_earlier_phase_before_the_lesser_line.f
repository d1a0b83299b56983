      X=1
      I=
