      IMPLICIT INTEGER (A-H,O-Z)
      X=3
      AREA=X*X
      WRITE (6,10) X,AREA
   10 FORMAT (2I4)
      END
