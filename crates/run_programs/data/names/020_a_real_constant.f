      PARAMETER (PI=3)
      I=PI
      END
