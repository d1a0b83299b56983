      WRI
* here
     1TE (6,1
     20) 4
     X2
   10 FORMAT (1X,

     1I5)
      END
