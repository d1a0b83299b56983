      MEASUREDLENGTHOFTHELIST=3
      J=2*                                       MEASUREDLENGTHOFTHELIST1234567890
      K=                                                        MEASURED
     1LENGTHOFTHELIST
      WRITE (6,10) J,K
   10 FORMAT (2I2)
      END
