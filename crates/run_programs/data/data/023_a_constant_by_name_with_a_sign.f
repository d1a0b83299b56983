      PARAMETER (N=1)
      DATA I/-N/
      END
